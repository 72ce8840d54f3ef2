.memory 65536
.cpus 1
.gdt 0x1000 0x27
.idt 0x2000 0x107
.task 0 0x18
.plan 0 10 32                     ; the timer: vector 20h, from step 10 on
.plan 0 40 32
.plan 0 70 32
.org 0x1000
.desc 0 0 0 0
.desc 0 0xfffff 0x9b 0xc          ; 08: code
.desc 0 0xfffff 0x93 0xc          ; 10: data
.desc 0x3000 0x67 0x89 0          ; 18: the first task
.desc 0x3080 0x67 0x89 0          ; 20: the second task
.org 0x2100
.gate 8 tick 0x8e 0
.org 0x3000
.tss eip=first efl=0x202 esp=0x5000 cs=8 ss=0x10 ds=0x10
.org 0x3080
.tss eip=second efl=0x202 esp=0x6000 cs=8 ss=0x10 ds=0x10
.org 0x4000
first:
    inc dword [0x8000]
    jmp first
.org 0x4100
second:
    inc dword [0x8004]
    jmp second
.org 0x4200
tick:                             ; whichever task it is, jump to the other
    push eax
    str ax
    cmp ax, 0x18
    pop eax
    je to_second
    jmp 0x18:0
    iret
to_second:
    jmp 0x20:0
    iret
