; The smallest program: six bytes of code. The kernel returns 7.
;
; A program has a heap, at least two stacks, and for each stack the function at which it begins. The
; kernel's stack is 0. What its function leaves in EAX is the result.
heap 64
stacks 2
entry 0 kernel
entry 1 kernel

sig plain () num

func kernel plain
    mov eax, 7
    ret
end
