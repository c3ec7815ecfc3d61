; Shows `Hello` at the left of the screen's first row, and returns how many letters it showed.
;
; The letters are the numbers of an array that is there from the start. Behind the comparison
; with the length, and nowhere else, element ECX may be read.
heap 64
stacks 2
entry 0 kernel
entry 1 kernel                  ; a second stack is asked for; here it is never used

sig plain () num
kind letters num
data greeting letters 5 {72, 101, 108, 108, 111}

func kernel plain
    push 0                      ; the letter's index, which is also its cell on the screen
next: () [num]
    mov ebx, data greeting
    mov ecx, [esp]
    cmp ecx, [ebx + 4]          ; the length
    jae done
    mov ecx, [ebx + ecx * 4 + 8]
    add ecx, 0x0700             ; light grey on black
    mov eax, [esp]
    call nucleus 6              ; VgaTextWrite: the cell EAX shows ECX
    add [esp], 1
    jmp next
done: () [num]
    pop eax
    ret
end
