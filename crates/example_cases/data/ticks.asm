; A kernel and two applications that never yield. Each application counts for ever in a static of
; its own. The timer's ticks interrupt them, and at each tick the kernel lets the other one run.
heap 64
stacks 3
entry 0 kernel
entry 1 one
entry 2 two

sig plain () num
static first num
static second num

func kernel plain
    mov eax, 65536
    call nucleus 8          ; StartTimer: from now on a tick requests line 0
again: ()
    mov eax, 1
    call nucleus 3          ; YieldTo: application 1 runs until a tick
    call nucleus 9          ; SendEoi: further ticks may come
    mov eax, 2
    call nucleus 3
    call nucleus 9
    jmp again
end

func one plain
    nop
count: ()
    add [static first], 1
    jmp count
end

func two plain
    nop
count: ()
    add [static second], 1
    jmp count
end
