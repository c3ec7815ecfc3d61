; Mistake: a register is used to which nothing was given. A kernel begins with registers of which
; nothing is known.
; Mended: `mov ecx, 2` before the addition.
heap 64
stacks 2
entry 0 kernel
entry 1 kernel

sig plain () num

func kernel plain
    mov eax, 5
    add eax, ecx                ; refused: rule 5
    ret
end
