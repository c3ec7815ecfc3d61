; Puts the squares of 0 to 9 into an array of ten numbers, and returns their sum, 285.
heap 64
stacks 2
entry 0 kernel
entry 1 kernel

sig plain () num
kind numbers num

func kernel plain
    mov eax, desc numbers       ; of which kind
    mov ecx, 10                 ; how long
    call nucleus 1              ; AllocArray
    test eax, eax
    je none                     ; null: the heap has no room
    mov ebx, eax
    mov ecx, 0
fill: (ebx arr numbers, ecx num)
    cmp ecx, [ebx + 4]          ; the length
    jae full
    mov edx, ecx
    imul edx, ecx
    mov [ebx + ecx * 4 + 8], edx
    inc ecx
    jmp fill
full: (ebx arr numbers)
    mov eax, 0
    mov ecx, 0
add_next: (eax num, ebx arr numbers, ecx num)
    cmp ecx, [ebx + 4]
    jae done
    add eax, [ebx + ecx * 4 + 8]
    inc ecx
    jmp add_next
none: ()
    mov eax, 0
done: (eax num)
    ret
end
