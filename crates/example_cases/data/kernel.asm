; A kernel that lets two applications run in turn, app1.asm and app2.asm, until both have ended.
;
; It makes the semaphore that the applications share, and sets the timer, so that its ticks
; interrupt an application that never yields. Whenever it runs again it shows the key codes that
; wait, from the left in row 0. At the end it writes `done` at the left of row 24, the last one,
; and returns how many nodes the applications made.
heap 4096
stacks 3
entry 0 kernel                  ; the entries of stacks 1 and 2 stand in the other texts

sig plain () num
sig of_number (eax num) num
sig of_nodes (eax ref node) num

class semaphore
    field count num             ; how many may take it now
end

class node
    field digit num
    field next ref node
end

static gate ref semaphore
static nodes1 ref node          ; what application 1 made
static nodes2 ref node
static column num               ; where the next digit of a key code is shown

func kernel plain
    mov eax, tab semaphore
    call nucleus 0              ; AllocObject
    test eax, eax
    je refused                  ; null: the heap has no room
    mov [eax + field semaphore count], 1
    mov [static gate], eax
    mov eax, 65536
    call nucleus 8              ; StartTimer
    push 2                      ; [esp + 4]: the application that waits, 0 for none
    push 1                      ; [esp]: the application that runs next
turn: () [num, num]
    mov eax, [esp]
    call nucleus 3              ; YieldTo: it runs until it yields, is interrupted, or ends
    push eax                    ; the reply tells which of these it was
    call show_keys
    pop eax
    cmp eax, 196608
    jae ended                   ; from there on it ended, by a fault or by itself
    cmp eax, 131072
    jb swap                     ; below it yielded
    call nucleus 9              ; SendEoi: the interrupt is served
swap: () [num, num]
    mov eax, [esp + 4]
    cmp eax, 0
    je turn                     ; there is no other one
    mov ecx, [esp]
    mov [esp], eax
    mov [esp + 4], ecx
    jmp turn
ended: () [num, num]
    mov eax, [esp + 4]          ; the other one goes on alone
    mov [esp], eax
    mov [esp + 4], 0
    cmp eax, 0
    jne turn
    add esp, 8                  ; both have ended
    call show_keys
    mov eax, 1920               ; row 24
    mov ecx, 0x0764             ; d
    call nucleus 6              ; VgaTextWrite
    mov eax, 1921
    mov ecx, 0x076F             ; o
    call nucleus 6
    mov eax, 1922
    mov ecx, 0x076E             ; n
    call nucleus 6
    mov eax, 1923
    mov ecx, 0x0765             ; e
    call nucleus 6
    mov eax, [static nodes1]
    call length
    push eax
    mov eax, [static nodes2]
    call length
    add eax, [esp]
    add esp, 4
    ret
refused: ()
    mov eax, 0
    ret
end

; Shows each key code that waits as two hexadecimal digits.
func show_keys plain
    nop
again: ()
    call nucleus 7              ; TryReadKeyboard: 256 where no code waits
    cmp eax, 256
    je none
    push eax
    shr eax, 4
    call show_digit
    pop eax
    and eax, 15
    call show_digit
    jmp again
none: (eax num)
    ret
end

; Shows a digit from 0 to 15 at the column, and goes on to the next column. Behind the last one
; comes the first again.
func show_digit of_number
    cmp eax, 10
    jb decimal
    add eax, 7                  ; the letter A stands seven characters behind the digit 9
decimal: (eax num)
    mov ecx, eax
    add ecx, 0x0730             ; 0, with attribute 7
    mov eax, [static column]
    call nucleus 6
    add [static column], 1
    cmp [static column], 80
    jb kept
    mov [static column], 0
kept: ()
    mov eax, 0
    ret
end

; How many nodes a list has.
func length of_nodes
    mov ecx, 0
again: (eax ref node, ecx num)
    test eax, eax
    je counted
    mov eax, [eax + field node next]
    inc ecx
    jmp again
counted: (ecx num)
    mov eax, ecx
    ret
end
