; A division by 0 ends the kernel's run: fault 0, and the status of the command is 10.
heap 64
stacks 2
entry 0 kernel
entry 1 kernel

sig plain () num

func kernel plain
    mov eax, 1
    mov edx, 0
    mov ecx, 0
    div ecx
    ret
end
