; Mistake: a branch by flags that tell nothing. A call clears what a comparison before it told.
; Mended: `cmp eax, 0` behind the call.
heap 64
stacks 2
entry 0 kernel
entry 1 kernel

sig plain () num

func kernel plain
    mov eax, 1
    call nucleus 4              ; GetStackState: 0 where the stack is empty
    je empty                    ; refused: rule 15
    mov eax, 1
    ret
empty: ()
    mov eax, 0
    ret
end
