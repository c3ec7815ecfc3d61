; Mistake: a function has no `ret`, and would run on into the next one.
; Mended: `ret` before its `end`.
heap 64
stacks 2
entry 0 kernel
entry 1 kernel

sig plain () num

func kernel plain
    mov eax, 7                  ; refused: rule 17
end

func next plain
    mov eax, 8
    ret
end
