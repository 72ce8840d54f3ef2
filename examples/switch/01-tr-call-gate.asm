; Row 1 by a CALL through a task gate: 0028 is a task gate, so the far CALL is a task switch, but TR holds no task.
.memory 65536
.cpus 1
.gdt 0x1000 0x2f
.bare 0 first
.org 0x1000
.desc 0 0 0 0
.desc 0 0xfffff 0x9b 0xc          ; 08: code
.desc 0 0xfffff 0x93 0xc          ; 10: data
.desc 0 0 0 0                     ; 18: nothing
.desc 0x3080 0x67 0x89 0          ; 20: a task
.gate 0x20 0 0x85 0               ; 28: a task gate to 20
.org 0x4000
first:
    call 0x28:0
