; Nodes are put into a list until the heap has no room for one more: AllocObject then gives null.
; The list is dropped, and GarbageCollect tells how many words of the heap are free: all 64. A node
; takes 8 words, so 8 were made, which `made` counts.
heap 64
stacks 2
entry 0 kernel
entry 1 idle

sig plain () num

class node
    field next ref node
    field number num
end

static list ref node
static made num

func kernel plain
    nop
again: ()
    mov eax, tab node
    call nucleus 0          ; AllocObject
    test eax, eax
    je full                 ; null: no gap between the nodes has 8 words
    mov ecx, [static list]
    mov [eax + field node next], ecx
    mov ecx, [static made]
    mov [eax + field node number], ecx
    mov [static list], eax
    add [static made], 1
    jmp again
full: ()
    mov [static list], null ref node
    call nucleus 2          ; GarbageCollect
    ret
end

func idle plain
    mov eax, 0
    ret
end
