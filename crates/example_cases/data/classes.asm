; An object of the second class is made. Behind a test against the first it still is one of the
; second, so its field can be read: 0, as each field of a new object.
heap 64
stacks 2
entry 0 kernel
entry 1 kernel

sig plain () num

class point
    field x num
end

class spot below point
    field colour num
end

func kernel plain
    mov eax, tab spot
    call nucleus 0              ; AllocObject
    test eax, eax
    je none
    mov ecx, [eax]              ; the table of its class
    cmp [ecx + display point], tab point
    jne none
    mov eax, [eax + field spot colour]
    ret
none: ()
    mov eax, 0
    ret
end
