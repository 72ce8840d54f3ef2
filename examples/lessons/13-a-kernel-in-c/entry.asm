; The kernel's entry, and its one way from task to task. nasm -f elf32
bits 32
global start, go_to_first, go_to_second
extern kernel

section .text
start:
    mov ax, 0x10                ; data
    mov ds, ax
    mov es, ax
    mov ss, ax
    mov esp, boot_stack_end
    jmp 0x08:.in_code           ; code
.in_code:
    call kernel
.stop:
    hlt
    jmp .stop

; A far jump to a task state segment: the processor saves all that is here, and goes on where the other task last left.
; Then it returns to its caller.
go_to_first:
    jmp 0x18:0
    ret
go_to_second:
    jmp 0x20:0
    ret

section .bss
align 16
    resb 256
boot_stack_end:
