; Row 1 by IRET with NT set: NT is set by hand, so IRET is a task switch, but TR holds no task.
.memory 65536
.cpus 1
.gdt 0x1000 0x27
.bare 0 first
.org 0x1000
.desc 0 0 0 0
.desc 0 0xfffff 0x9b 0xc          ; 08: code
.desc 0 0xfffff 0x93 0xc          ; 10: data
.desc 0 0 0 0                     ; 18: nothing
.desc 0x3080 0x67 0x89 0          ; 20: a task
.org 0x4000
first:
    mov esp, 0x5000
    push 0x4002               ; NT
    popf
    iret
