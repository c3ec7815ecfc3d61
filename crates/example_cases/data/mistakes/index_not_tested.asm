; Mistake: an element is read whose index was not compared with the array's length.
; Mended: `cmp ecx, [ebx + 4]` and `jae none` before it, where a label `none` returns.
heap 64
stacks 2
entry 0 kernel
entry 1 kernel

sig plain () num
kind numbers num
data three numbers 3 {5, 6, 7}

func kernel plain
    mov ebx, data three
    mov ecx, 2
    mov eax, [ebx + ecx * 4 + 8]            ; refused: rule 3
    ret
end
