; Row 8 by the start of a processor: the new task has 0010 as its LDT, which is data.
.memory 65536
.cpus 1
.gdt 0x1000 0x27
.task 0 0x20
.org 0x1000
.desc 0 0 0 0
.desc 0 0xfffff 0x9b 0xc          ; 08: code
.desc 0 0xfffff 0x93 0xc          ; 10: data
.desc 0 0 0 0                     ; 18: nothing
.desc 0x3080 0x67 0x89 0          ; 20: a task
.org 0x3080
.tss eip=second efl=2 esp=0x6000 cs=8 ss=0x10 ds=0x10 ldt=0x10
.org 0x4100
second:
    hlt
