.memory 65536
.cpus 1
.gdt 0x1000 0x2f
.idt 0x2000 0x67
.task 0 0x18
.org 0x1000
.desc 0 0 0 0
.desc 0 0xfffff 0x9b 0xc          ; 08: code
.desc 0 0xfffff 0x93 0xc          ; 10: data
.desc 0x3000 0x67 0x89 0          ; 18: the program's task
.desc 0x3080 0x67 0x89 0          ; 20: the task of the double fault
.desc 0 0xfff 0x93 4              ; 28: a stack of 4,096 bytes
.org 0x2040
.gate 0x20 0 0x85 0               ; vector 8, double fault: a task gate
.org 0x2060
.gate 8 handler 0x8e 0            ; vector 12, #SS: an interrupt gate
.org 0x3000
.tss eip=program efl=2 esp=0x5000 cs=8 ss=0x28 ds=0x10
.org 0x3080
.tss eip=double_fault efl=2 esp=0x6000 cs=8 ss=0x10 ds=0x10
.org 0x4000
program:
    push eax                      ; ESP lies past the limit of SS
.org 0x4080
handler:
    iret                          ; never reached
.org 0x4100
double_fault:
    pop eax                       ; the code
    mov bx, [0x3080]              ; the link: which task it was
    mov ecx, [0x3020]             ; its EIP
    hlt
