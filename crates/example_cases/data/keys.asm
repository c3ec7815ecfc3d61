; A kernel that shows each key on the screen, from the left in the first row. Between two keys an
; application runs that does nothing. The code 13 ends the run, and the kernel returns how many keys
; it showed.
heap 64
stacks 2
entry 0 kernel
entry 1 idle

sig plain () num
static place num            ; the next cell

func kernel plain
    nop
again: ()
    mov eax, 1
    call nucleus 3          ; YieldTo: the application runs until a key interrupts it
    call nucleus 9          ; SendEoi: further keys may interrupt
    call nucleus 7          ; TryReadKeyboard: the key's code
    cmp eax, 13
    je done
    mov ecx, eax
    add ecx, 1792           ; 256 * 7: the attribute
    mov eax, [static place]
    call nucleus 6          ; VgaTextWrite
    add [static place], 1
    jmp again
done: ()
    mov eax, [static place]
    ret
end

func idle plain
    nop
spin: ()
    jmp spin
end
