.memory 16384
.cpus 2
.bare 0 begin
.bare 1 begin
.org 0x1000
begin:
    inc dword [0x2000]
    lock inc dword [0x2004]
    hlt
