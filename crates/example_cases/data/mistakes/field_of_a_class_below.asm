; Mistake: a field of the class rectangle is read of an object that is known to be a square only.
; Mended: behind `mov ecx, [eax]`, `cmp [ecx + display rectangle], tab rectangle` and `jne none` the
; object is a rectangle.
heap 64
stacks 2
entry 0 kernel
entry 1 kernel

sig plain () num
class square
    field side num
end
class rectangle below square
    field height num
end
static shown ref square

func kernel plain
    mov eax, [static shown]
    test eax, eax
    je none
    mov eax, [eax + field rectangle height] ; refused: rule 3
    ret
none: ()
    mov eax, 0
    ret
end
