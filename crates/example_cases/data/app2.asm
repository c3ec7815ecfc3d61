; Application 2 of the kernel in kernel.asm, on stack 2.
;
; In each of ten rounds it takes the semaphore, puts a node into its list, writes the digit of the
; round into row 2, gives the semaphore back, and yields to the kernel.
entry 2 app2

; What stands behind `extern` is in kernel.asm. It must be the same here as there.
extern sig plain () num

extern class semaphore
    field count num
end

extern class node
    field digit num
    field next ref node
end

extern static gate ref semaphore
extern static nodes2 ref node

func app2 plain
    push 0                      ; the round
round: () [num]
    mov ebx, [static gate]
    test ebx, ebx
    je leave
    sub [ebx + field semaphore count], 1
    jns taken                   ; it was 1, so the semaphore is this application's now
    add [ebx + field semaphore count], 1
    mov eax, 0
    call nucleus 3              ; YieldTo the kernel: the other application has the semaphore
    jmp round
taken: () [num]
    mov eax, tab node
    call nucleus 0              ; AllocObject
    test eax, eax
    je show                     ; null: there is no node in this round
    mov ecx, [esp]
    mov [eax + field node digit], ecx
    mov ecx, [static nodes2]
    mov [eax + field node next], ecx
    mov [static nodes2], eax
show: () [num]
    mov eax, [esp]
    mov ecx, eax
    add eax, 160                ; row 2 has the cells from 160 on
    add ecx, 0x0730             ; 0, with attribute 7
    call nucleus 6              ; VgaTextWrite
    mov ebx, [static gate]      ; a call of the Nucleus leaves nothing in EBX
    test ebx, ebx
    je leave
    add [ebx + field semaphore count], 1
    mov eax, 0
    call nucleus 3
    add [esp], 1
    cmp [esp], 10
    jb round
leave: () [num]
    add esp, 4
    mov eax, 0
    ret
end
