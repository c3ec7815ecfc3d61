; A function that calls itself for each number down to 0. With the number here the stack is filled
; to its last word, and with one more it would be too small.
heap 64
stacks 2
entry 0 kernel
entry 1 kernel

sig plain () num
sig of_number (eax num) num

func kernel plain
    mov eax, 4094
    call down
    ret
end

func down of_number
    test eax, eax
    je done
    dec eax
    call down
done: (eax num)
    ret
end
