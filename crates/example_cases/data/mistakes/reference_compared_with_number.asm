; Mistake: a reference is compared with a number other than 0.
; Mended: the field is compared, as `cmp [eax + field node number], 7` behind a test of EAX.
heap 64
stacks 2
entry 0 kernel
entry 1 kernel

sig plain () num
class node
    field number num
end
static first ref node

func kernel plain
    mov eax, [static first]
    cmp eax, 7                  ; refused: rule 9
    je none
none: ()
    mov eax, 0
    ret
end
