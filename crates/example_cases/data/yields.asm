; A kernel and two applications that yield to it. Each application adds to the static `sum` three
; times, 1 or 10, and yields after each addition. Then both end, the second one last, which is told
; by the reply 262144 + 2. The kernel returns 33.
heap 64
stacks 3
entry 0 kernel
entry 1 ones
entry 2 tens

sig plain () num
static sum num

func kernel plain
    nop
again: ()
    mov eax, 1
    call nucleus 3          ; YieldTo: application 1 runs until it yields or ends
    mov eax, 2
    call nucleus 3          ; then application 2
    cmp eax, 262146
    jne again
    mov eax, [static sum]
    ret
end

func ones plain
    push 3                  ; the rounds that are left
again: () [num]
    add [static sum], 1
    mov eax, 0
    call nucleus 3          ; YieldTo: the kernel
    sub [esp], 1
    jne again
    add esp, 4
    mov eax, 0
    ret
end

func tens plain
    push 3
again: () [num]
    add [static sum], 10
    mov eax, 0
    call nucleus 3
    sub [esp], 1
    jne again
    add esp, 4
    mov eax, 0
    ret
end
