; Mistake: a jump goes to a label at which more is known than where the jump stands.
; Mended: `mov ecx, 10` before the jump.
heap 64
stacks 2
entry 0 kernel
entry 1 kernel

sig plain () num

func kernel plain
    mov eax, 0
    jmp again                   ; refused: rule 16
again: (eax num, ecx num)
    add eax, ecx
    dec ecx
    jne again
    ret
end
