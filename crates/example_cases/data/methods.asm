; A method is called by the tables of three classes, each below the one before it and with a method
; of its own in its place: 1 + 2 + 4. Then the last one's table is tested against the second, and a
; static, which is null, would be tested against the third.
heap 64
stacks 2
entry 0 kernel
entry 1 kernel

sig plain () num

class first
    field number num
    method value plain one
end

class second below first
    field number2 num
    method value plain two
end

class third below second
    method value plain four
end

static held ref first

func kernel plain
    mov eax, tab first
    call [eax + method first value]
    push eax
    mov eax, tab second
    call [eax + method second value]
    pop ecx
    add eax, ecx
    push eax
    mov eax, tab third
    call [eax + method third value]
    pop ecx
    add eax, ecx
    mov ecx, tab third
    cmp [ecx + display second], tab second
    je tested
    mov eax, 0
tested: (eax num)
    mov ebx, [static held]
    test ebx, ebx
    je done
    mov ecx, [ebx]
    cmp [ecx + display third], tab third
    jne done
    mov eax, [ebx + field second number2]
done: (eax num)
    ret
end

func one plain
    mov eax, 1
    ret
end

func two plain
    mov eax, 2
    ret
end

func four plain
    mov eax, 4
    ret
end
