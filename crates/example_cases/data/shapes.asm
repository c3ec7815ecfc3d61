; Adds the areas of a square and of a rectangle that stand in one list, 3 * 3 + 4 * 5 = 29.
;
; Each class has a method of its own in the slot `area` of its table, and the table of an object
; is its first word. So the call finds the right one, whatever the object is.
heap 64
stacks 2
entry 0 kernel
entry 1 kernel

sig plain () num
sig of_square (eax obj square) num

class square
    field side num
    field next ref square
    method area of_square square_area
end

class rectangle below square
    field height num
    method area of_square rectangle_area
end

static list ref square

func kernel plain
    mov eax, tab square
    call nucleus 0              ; AllocObject
    test eax, eax
    je none                     ; null: the heap has no room
    mov [eax + field square side], 3
    call put
    mov eax, tab rectangle
    call nucleus 0
    test eax, eax
    je none
    mov [eax + field rectangle side], 4
    mov [eax + field rectangle height], 5
    call put                    ; a rectangle may stand wherever a square is asked for
    push 0                      ; the sum
    mov eax, [static list]
next: (eax ref square) [num]
    test eax, eax
    je done
    push [eax + field square next]
    mov ecx, [eax]              ; the table of the object's class
    call [ecx + method square area]
    pop ecx                     ; what was pushed is still known to be of class square
    add [esp], eax
    mov eax, ecx
    jmp next
done: () [num]
    pop eax
    ret
none: ()
    mov eax, 0
    ret
end

; Puts an object at the front of the list.
func put of_square
    mov ecx, [static list]
    mov [eax + field square next], ecx
    mov [static list], eax
    mov eax, 0
    ret
end

func square_area of_square
    mov ecx, [eax + field square side]
    imul ecx, ecx
    mov eax, ecx
    ret
end

; The method is of the same signature in each class: it is given some square. Its height can be
; read only behind the test that it is a rectangle.
func rectangle_area of_square
    mov ecx, [eax]
    cmp [ecx + display rectangle], tab rectangle
    jne other
    mov ecx, [eax + field rectangle side]
    imul ecx, [eax + field rectangle height]
    mov eax, ecx
    ret
other: ()
    mov eax, 0
    ret
end
