.memory 16384
.cpus 1
.bare 0 begin
.org 0x1000
begin:
    mov eax, 0x12345678
    mov [0x2000], eax
    hlt
