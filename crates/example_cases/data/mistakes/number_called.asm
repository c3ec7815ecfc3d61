; Mistake: a number is called as if it were a function.
; Mended: `mov ecx, code seven`, or `call seven`.
heap 64
stacks 2
entry 0 kernel
entry 1 kernel

sig plain () num

func kernel plain
    mov ecx, 0x0010000A
    call ecx                    ; refused: rule 10
    ret
end

func seven plain
    mov eax, 7
    ret
end
