; Mistake: room on the stack is made by a subtraction. ESP is lowered by PUSH and CALL alone.
; Mended: `push 0` makes a slot that holds the number 0.
heap 64
stacks 2
entry 0 kernel
entry 1 kernel

sig plain () num

func kernel plain
    sub esp, 4                  ; refused: rule 2
    mov [esp], 7
    pop eax
    ret
end
