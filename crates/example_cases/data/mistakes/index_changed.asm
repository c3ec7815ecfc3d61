; Mistake: the index is changed between the comparison with the length and the read.
; Mended: `inc ecx` before the comparison.
heap 64
stacks 2
entry 0 kernel
entry 1 kernel

sig plain () num
kind numbers num
data three numbers 3 {5, 6, 7}

func kernel plain
    mov eax, 0
    mov ebx, data three
    mov ecx, 1
    cmp ecx, [ebx + 4]
    jae none
    inc ecx
    mov eax, [ebx + ecx * 4 + 8]            ; refused: rule 3
none: (eax num)
    ret
end
