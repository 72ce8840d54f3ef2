; Row 16 by INT through a task gate in the IDT: the new task has 0060 as DS, which lies past the limit of the GDT.
.memory 65536
.cpus 1
.gdt 0x1000 0x27
.idt 0x2000 0x107
.task 0 0x18
.org 0x1000
.desc 0 0 0 0
.desc 0 0xfffff 0x9b 0xc          ; 08: code
.desc 0 0xfffff 0x93 0xc          ; 10: data
.desc 0x3000 0x67 0x89 0          ; 18: the first task
.desc 0x3080 0x67 0x89 0          ; 20: the second task
.org 0x2100
.gate 0x20 0 0x85 0               ; vector 20h: a task gate to 20
.org 0x3000
.tss eip=first efl=2 esp=0x5000 cs=8 ss=0x10 ds=0x10
.org 0x3080
.tss eip=second efl=2 esp=0x6000 cs=8 ss=0x10 ds=0x60
.org 0x4000
first:
    int 0x20
.org 0x4100
second:
    hlt
