; Mistake: the length of an array is written. It stays as it was when the array was made.
; Mended: AllocArray makes a longer one.
heap 64
stacks 2
entry 0 kernel
entry 1 kernel

sig plain () num
kind numbers num
data three numbers 3 {5, 6, 7}

func kernel plain
    mov ebx, data three
    mov [ebx + 4], 10           ; refused: rule 4
    mov eax, 0
    ret
end
