; An element of an array is read behind a test that the index is below the length.
heap 64
stacks 2
entry 0 kernel
entry 1 kernel

sig plain () num
kind numbers num
data three numbers 3 { 5, 6, 7 }

func kernel plain
    mov eax, 0
    mov ebx, data three
    mov ecx, 2
    cmp ecx, [ebx + 4]          ; the length
    jae done
    mov eax, [ebx + ecx * 4 + 8]
done: (eax num)
    ret
end
