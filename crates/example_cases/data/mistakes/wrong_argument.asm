; Mistake: a function is called with a number where its signature asks for an object.
; Mended: `mov eax, [static first]`, `test eax, eax` and `je none` before the call.
heap 64
stacks 2
entry 0 kernel
entry 1 kernel

sig plain () num
sig of_node (eax obj node) num
class node
    field number num
end
static first ref node

func kernel plain
    mov eax, 7
    call number_of              ; refused: rule 11
    ret
end

func number_of of_node
    mov eax, [eax + field node number]
    ret
end
