; Mistake: a branch asks behind DEC which number is greater. Its flags tell no more than whether the
; result is 0.
; Mended: `sub ecx, 1` in place of `dec ecx`, or `jne` in place of `jg`.
heap 64
stacks 2
entry 0 kernel
entry 1 kernel

sig plain () num

func kernel plain
    mov eax, 0
    mov ecx, 10
again: (eax num, ecx num)
    add eax, ecx
    dec ecx
    jg again                    ; refused: rule 15
    ret
end
