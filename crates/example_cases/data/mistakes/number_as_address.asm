; Mistake: a number is used as an address. The screen is written by a call of the Nucleus.
; Mended: `mov eax, 0`, `mov ecx, 0x0748` and `call nucleus 6`, which is VgaTextWrite.
heap 64
stacks 2
entry 0 kernel
entry 1 kernel

sig plain () num

func kernel plain
    mov ebx, 0xB8000
    mov [ebx], 0x0748           ; refused: rule 3
    mov eax, 0
    ret
end
