; Mistake: a register is used behind a call. A call leaves nothing but its result in EAX.
; Mended: `push ecx` before the call, and `pop ecx` behind it.
heap 64
stacks 2
entry 0 kernel
entry 1 kernel

sig plain () num

func kernel plain
    mov ecx, 5
    call nucleus 10             ; CurrentStack
    add eax, ecx                ; refused: rule 5
    ret
end
