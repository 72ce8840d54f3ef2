; Row 9 by the start of a processor: the new task has 0030 as its LDT, whose descriptor has P = 0.
.memory 65536
.cpus 1
.gdt 0x1000 0x37
.task 0 0x20
.org 0x1000
.desc 0 0 0 0
.desc 0 0xfffff 0x9b 0xc          ; 08: code
.desc 0 0xfffff 0x93 0xc          ; 10: data
.desc 0 0 0 0                     ; 18: nothing
.desc 0x3080 0x67 0x89 0          ; 20: a task
.desc 0 0 0 0                     ; 28: nothing
.desc 0 0xff 0x02 0               ; 30: an LDT that isn't present
.org 0x3080
.tss eip=second efl=2 esp=0x6000 cs=8 ss=0x10 ds=0x10 ldt=0x30
.org 0x4100
second:
    hlt
