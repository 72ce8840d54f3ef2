#!/bin/sh
# Builds kernel.img from the sources beside it: needs nasm, gcc, ld and python3-pyelftools.
set -e
cd "$(dirname "$0")"
made=$(mktemp -d)
trap 'rm -r "$made"' EXIT
nasm -f elf32 -o "$made/entry.o" entry.asm
gcc -m32 -march=i386 -O1 -ffreestanding -fno-pic -fno-stack-protector -fno-asynchronous-unwind-tables -c -o "$made/kernel.o" kernel.c
ld -m elf_i386 -z noexecstack --no-warn-rwx-segments -T link.ld -o "$made/kernel.elf" "$made/entry.o" "$made/kernel.o"
"${PYTHON:-python3}" ../../../tools/image.py --memory 16384 --elf "$made/kernel.elf" --gdt gdt:0x27 --bare 0=entry > "$made/kernel.img"
mv "$made/kernel.img" kernel.img
