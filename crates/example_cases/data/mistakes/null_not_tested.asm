; Mistake: an object is used that may be null. AllocObject gives null where the heap has no room.
; Mended: `test eax, eax` and `je none` behind the call, where a label `none` returns.
heap 64
stacks 2
entry 0 kernel
entry 1 kernel

sig plain () num
class node
    field number num
end

func kernel plain
    mov eax, tab node
    call nucleus 0              ; AllocObject
    mov [eax + field node number], 7        ; refused: rule 3
    mov eax, 0
    ret
end
