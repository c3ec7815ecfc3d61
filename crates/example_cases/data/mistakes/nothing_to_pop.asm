; Mistake: a function pops more than it pushed. What lies below is its caller's.
; Mended: without the second `pop`.
heap 64
stacks 2
entry 0 kernel
entry 1 kernel

sig plain () num

func kernel plain
    push 7
    pop eax
    pop ecx                     ; refused: rule 8
    ret
end
