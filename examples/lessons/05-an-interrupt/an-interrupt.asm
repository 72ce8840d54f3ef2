.memory 16384
.cpus 1
.gdt 0x1800 0x17
.idt 0x1900 0x107
.bare 0 begin
.plan 0 1 32                      ; the vector 20h, from step 1 on
.org 0x1000
begin:
    mov esp, 0x2000
    nop
    sti
    hlt
    hlt
.org 0x1100
tick:
    iret
.org 0x1800
.desc 0 0 0 0
.desc 0 0xfffff 0x9b 0xc          ; 08: code
.desc 0 0xfffff 0x93 0xc          ; 10: data
.org 0x1a00
.gate 8 tick 0x8e 0
