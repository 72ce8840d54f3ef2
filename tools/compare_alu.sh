#!/bin/sh
# Compares m386_alu with this machine's own processor: every operation and width on 100,000 pseudo-random operands and flags,
# flags that the manual leaves undefined aside. It needs gcc and a processor of the x86 family, and is no part of the gate.
# Usage: tools/compare_alu.sh      (prints the number of blocks of 10,000 cases that differ, and fails if there is one)
set -eu
here=$(cd "$(dirname "$0")" && pwd)
work=$(mktemp -d)
trap 'rm -rf "$work"' EXIT

mkdir -p "$work/crates/alu_sums/src" "$work/crates/alu_sums/specs"
for crate in m386_base m386_alu; do
    mkdir -p "$work/crates/$crate"
    for part in src specs proofs; do
        if [ -d "$here/../crates/$crate/$part" ]; then cp -r "$here/../crates/$crate/$part" "$work/crates/$crate/"; fi
    done
done
printf 'm386_base: arrayvec\nm386_alu: m386_base\nalu_sums: m386_base m386_alu\n' > "$work/crates.txt"
: > "$work/crates/alu_sums/specs/Lib.antt"

cat > "$work/crates/alu_sums/src/main.rt" <<'PROGRAM'
//! Checksums of the results and flags of m386_alu, over the cases of compare_alu.c.
#![tactic(auto)]

use m386_alu::arithmetic::{AluOp, alu};
use m386_alu::bit_tests::{BitOp, bits};
use m386_alu::division::div;
use m386_alu::double_shifts::double_shift;
use m386_alu::products::mul;
use m386_alu::shifts::{ShiftOp, shift};
use m386_base::number::{Flags, Width};
use std::io;

const ALU: [AluOp; 8] = [AluOp::Add, AluOp::Or, AluOp::Adc, AluOp::Sbb, AluOp::And, AluOp::Sub, AluOp::Xor, AluOp::Cmp];
const SHIFTS: [ShiftOp; 7] = [ShiftOp::Rol, ShiftOp::Ror, ShiftOp::Rcl, ShiftOp::Rcr, ShiftOp::Shl, ShiftOp::Shr, ShiftOp::Sar];
const BITS: [BitOp; 4] = [BitOp::Test, BitOp::Set, BitOp::Reset, BitOp::Complement];

#[derive(Clone, Copy)]
struct Run {
    state: u64,
    sum: u64,
}

fn draw(run: &mut Run) -> u64 {
    run.state ^= run.state << 13;
    run.state ^= run.state >> 7;
    run.state ^= run.state << 17;
    run.state
}

fn pick(run: &mut Run, max: u32) -> u32 {
    let r = draw(run);
    match r & 15 {
        0 => 0,
        1 => max,
        2 => max / 2,
        3 => max / 2 + 1,
        4 => 1,
        5 => (r >> 8 & 15) as u32,
        6 => max.wrapping_sub((r >> 8 & 15) as u32),
        _ => (r >> 16 & max as u64) as u32,
    }
}

fn hash(run: &mut Run, value: u32) {
    run.sum = (run.sum ^ value as u64).wrapping_mul(1099511628211);
}

fn width_of(bits: u32) -> Width {
    match bits {
        8 => Width::W8,
        16 => Width::W16,
        _ => Width::W32,
    }
}

fn one_case(run: &mut Run, kind: u32, op: usize, size: u32) {
    let max = if size == 32 { 0xffff_ffff } else { (1u32 << size) - 1 };
    let width = width_of(size);
    let mut a = pick(run, max);
    let b = pick(run, max);
    let c = pick(run, max);
    let r = draw(run);
    let count = if r & 3 != 0 { (r >> 8 & 0xff) as u8 } else { 1 };
    let flags = Flags((draw(run) & 0x8d5 | 2) as u32);
    let n = count as u32 % 32;
    let single = if n == 1 { 0x800 } else { 0 };
    if kind == 0 {
        let (value, after) = alu(ALU[op], width, a, b, flags);
        let logic = op == 1 || op == 4 || op == 6;
        if op != 7 {
            hash(run, value);
        }
        hash(run, after.0 & if logic { 0x8c5 } else { 0x8d5 });
    } else if kind == 1 {
        let (value, after) = shift(SHIFTS[op], width, a, count, flags);
        hash(run, value);
        hash(run, after.0 & if n == 0 { 0x8d5 } else if op < 4 { 0xd5 | single } else { 0xc5 | single });
    } else if kind == 2 {
        if n <= size {
            let (value, after) = double_shift(op == 1, width, a, b, count, flags);
            hash(run, value);
            hash(run, after.0 & if n == 0 { 0x8d5 } else { 0xc5 | single });
        }
    } else if kind == 3 {
        let (value, after) = bits(BITS[op], width, a, (b & (size - 1)) as u8, flags);
        hash(run, value);
        hash(run, after.0 & 1);
    } else if kind == 4 {
        let (high, low, after) = mul(op == 1, width, a, b, flags);
        hash(run, high);
        hash(run, low);
        hash(run, after.0 & 0x801);
    } else {
        if r & 16 != 0 {
            a = if op == 1 && b >> (size - 1) != 0 { max } else { 0 };
        }
        if r & 32 != 0 {
            a ^= c >> 1;
        }
        match div(op == 1, width, a, b, c) {
            None => hash(run, 0xdead),
            Some((quotient, rest)) => {
                hash(run, quotient);
                hash(run, rest);
            }
        }
    }
}

fn block_sum(kind: u32, op: u32, size: u32, block: u32) -> u64 {
    let place = 1 + block as u64 + 16 * (size as u64 + 64 * (op as u64 + 16 * kind as u64));
    let mut run = Run {
        state: 0x9e37_79b9_7f4a_7c15u64.wrapping_mul(place),
        sum: 14695981039346656037,
    };
    for _ in 0..10000 {
        one_case(&mut run, kind, op as usize, size);
    }
    run.sum
}

fn main(rt: HostRuntime) -> io::Result<()> {
    let counts: [u32; 6] = [8, 7, 2, 4, 2, 2];
    let sizes: [u32; 3] = [8, 16, 32];
    for kind in 0..6u32 {
        for op in 0..counts[kind as usize] {
            for size in sizes {
                if size != 8 || kind != 2 && kind != 3 {
                    for block in 0..10 {
                        let sum = block_sum(kind, op, size, block);
                        println!(rt; "{kind} {op} {size} {block} {sum}")?;
                    }
                }
            }
        }
    }
    Ok(())
}
PROGRAM

gcc -O1 -mno-red-zone -o "$work/compare" "$here/compare_alu.c"
"$work/compare" > "$work/processor"
(cd "$work/crates/alu_sums" && rt try) > "$work/tried" 2> "$work/messages" || { cat "$work/tried" "$work/messages"; exit 1; }
grep -E '^[0-9]+ [0-9]+ [0-9]+ [0-9]+ [0-9]+$' "$work/tried" > "$work/machine" || true
blocks=$(wc -l < "$work/processor")
if [ "$(wc -l < "$work/machine")" != "$blocks" ]; then
    echo "m386_alu printed $(wc -l < "$work/machine") lines, and the processor's program $blocks"
    head -20 "$work/messages"
    exit 1
fi
diff "$work/processor" "$work/machine" > "$work/difference" || true
differ=$(grep -c '^<' "$work/difference" || true)
echo "$blocks blocks of 10,000 cases (kind, operation, width, block), $differ differ"
grep '^<' "$work/difference" | head -40 || true
[ "$differ" = 0 ]
