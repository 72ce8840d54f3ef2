; Row 7 by a JMP through a task gate: the TSS has the limit 66h, 102.
.memory 65536
.cpus 1
.gdt 0x1000 0x2f
.task 0 0x18
.org 0x1000
.desc 0 0 0 0
.desc 0 0xfffff 0x9b 0xc          ; 08: code
.desc 0 0xfffff 0x93 0xc          ; 10: data
.desc 0x3000 0x67 0x89 0          ; 18: the first task
.desc 0x3080 0x66 0x89 0          ; 20: the second task, a byte too short
.gate 0x20 0 0x85 0               ; 28: a task gate to 20
.org 0x3000
.tss eip=first efl=2 esp=0x5000 cs=8 ss=0x10 ds=0x10
.org 0x3080
.tss eip=second efl=2 esp=0x6000 cs=8 ss=0x10 ds=0x10
.org 0x4000
first:
    jmp 0x28:0
.org 0x4100
second:
    hlt
