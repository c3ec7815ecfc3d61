; Mistake: a function returns without its result, a number in EAX.
; Mended: `mov eax, ecx` before `ret`.
heap 64
stacks 2
entry 0 kernel
entry 1 kernel

sig plain () num

func kernel plain
    mov ecx, 7
    ret                         ; refused: rule 13
end
