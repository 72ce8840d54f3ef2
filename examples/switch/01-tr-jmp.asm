; Row 1 by a JMP to a TSS: 0020 is a TSS, so the far JMP is a task switch, but TR holds no task.
.memory 65536
.cpus 1
.gdt 0x1000 0x27
.bare 0 first
.org 0x1000
.desc 0 0 0 0
.desc 0 0xfffff 0x9b 0xc          ; 08: code
.desc 0 0xfffff 0x93 0xc          ; 10: data
.desc 0 0 0 0                     ; 18: nothing
.desc 0x3080 0x67 0x89 0          ; 20: a task
.org 0x4000
first:
    jmp 0x20:0
