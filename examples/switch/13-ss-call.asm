; Row 13 by a CALL to a TSS: the new task has 0008 as SS, which is code.
.memory 65536
.cpus 1
.gdt 0x1000 0x27
.task 0 0x18
.org 0x1000
.desc 0 0 0 0
.desc 0 0xfffff 0x9b 0xc          ; 08: code
.desc 0 0xfffff 0x93 0xc          ; 10: data
.desc 0x3000 0x67 0x89 0          ; 18: the first task
.desc 0x3080 0x67 0x89 0          ; 20: the second task
.org 0x3000
.tss eip=first efl=2 esp=0x5000 cs=8 ss=0x10 ds=0x10
.org 0x3080
.tss eip=second efl=2 esp=0x6000 cs=8 ss=8 ds=0x10
.org 0x4000
first:
    call 0x20:0
.org 0x4100
second:
    hlt
