; The kernel returns 5 + 2. The result of a function stands in EAX.
heap 64
stacks 2
entry 0 kernel
entry 1 kernel

sig plain () num

func kernel plain
    mov eax, 5
    mov ecx, 2
    add eax, ecx
    ret
end
