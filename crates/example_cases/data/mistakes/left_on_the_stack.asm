; Mistake: a function returns with a slot left on the stack.
; Mended: `add esp, 4` or a `pop` before `ret`.
heap 64
stacks 2
entry 0 kernel
entry 1 kernel

sig plain () num

func kernel plain
    push 7
    mov eax, [esp]
    ret                         ; refused: rule 12
end
