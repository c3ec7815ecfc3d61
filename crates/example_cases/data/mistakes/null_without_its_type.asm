; Mistake: 0 is written where a reference belongs. As a word null is 0, but 0 is a number.
; Mended: `mov [static list], null ref node`.
heap 64
stacks 2
entry 0 kernel
entry 1 kernel

sig plain () num
class node
    field next ref node
end
static list ref node

func kernel plain
    mov [static list], 0        ; refused: rule 6
    mov eax, 0
    ret
end
