#!/usr/bin/env python3
"""Measures the decoder and the encoder: operations a second on one core.

usage: bench/operations.py

A program over m386_decode and m386_encode, which this script proves and builds in a scratch repository, goes over the mix of
operations below, of one to seven bytes, again and again, and takes the time itself. It decodes the bytes that are left, or
encodes the operations that were decoded before. The numbers are the best of five runs of a second or two,
by the clock and by the processor time of the whole run.
"""
import os
import resource
import subprocess
import sys
import tempfile

sys.path.insert(0, os.path.join(os.path.dirname(os.path.abspath(__file__)), "..", "tools"))
from built_program import built

# A usual mix: moves, arithmetic, jumps and the stack, as a compiler writes them.
MIX = """
55                      push ebp
89 e5                   mov ebp, esp
83 ec 18                sub esp, 24
53                      push ebx
8b 45 08                mov eax, [ebp + 8]
8b 5d 0c                mov ebx, [ebp + 12]
31 c9                   xor ecx, ecx
c7 45 fc 00 00 00 00    mov dword [ebp - 4], 0
8b 14 8b                mov edx, [ebx + ecx * 4]
01 d0                   add eax, edx
41                      inc ecx
39 f1                   cmp ecx, esi
75 f6                   jne -10
0f b6 03                movzx eax, byte [ebx]
85 c0                   test eax, eax
74 05                   je 5
e8 10 00 00 00          call 16
83 c4 08                add esp, 8
a1 00 20 00 00          mov eax, [2000h]
68 00 30 00 00          push 3000h
ff 75 08                push dword [ebp + 8]
8d 74 26 04             lea esi, [esi + 4]
66 89 0d 00 40 00 00    mov [4000h], cx
c1 e0 04                shl eax, 4
0f af c2                imul eax, edx
f7 f3                   div ebx
88 07                   mov [edi], al
47                      inc edi
8b 04 85 00 50 00 00    mov eax, [eax * 4 + 5000h]
0f 84 10 00 00 00       je 16
25 ff 00 00 00          and eax, 255
b8 01 00 00 00          mov eax, 1
a3 00 60 00 00          mov [6000h], eax
eb 02                   jmp 2
f3 a4                   rep movsb
3b 45 f8                cmp eax, [ebp - 8]
7c 04                   jl 4
5b                      pop ebx
c9                      leave
c3                      ret
"""

PROGRAM = """//! Decodes or encodes the operations of standard input again and again, and prints how many and the nanoseconds that it took.
#![tactic(auto)]

use m386_decode::bytes::decode_bytes;
use m386_encode::encode::encode;
use m386_opmap::op::Op;
use std::alloc::Global;
use std::env;
use std::io::{self, Read};
use std::time::Instant;

/// How many operations the bytes are, and the sum of their lengths.
fn decode_all(bytes: &[u8]) -> (u64, u64) {
    let mut left = bytes;
    let mut count = 0u64;
    let mut sum = 0u64;
    for _ in 0..bytes.len() {
        let Ok(decoded) = decode_bytes(left) else {
            return (count, sum);
        };
        left = left.get(decoded.len as usize..).unwrap_or(&[]);
        count = count.wrapping_add(1);
        sum = sum.wrapping_add(decoded.len as u64);
    }
    (count, sum)
}

/// How many operations are written, and the sum of their lengths.
fn encode_all(ops: &[Op]) -> (u64, u64) {
    let mut count = 0u64;
    let mut sum = 0u64;
    for op in ops {
        if let Some(bytes) = encode(op) {
            count = count.wrapping_add(1);
            sum = sum.wrapping_add(bytes.len() as u64);
        }
    }
    (count, sum)
}

/// The operations that the bytes are.
fn operations(alloc: Global, bytes: &[u8]) -> io::Result<Vec<Op>> {
    let mut left = bytes;
    let mut ops = Vec::new(alloc);
    for _ in 0..bytes.len() {
        let Ok(decoded) = decode_bytes(left) else {
            return Ok(ops);
        };
        left = left.get(decoded.len as usize..).unwrap_or(&[]);
        ops.push(decoded.op)?;
    }
    Ok(ops)
}

fn main(rt: HostRuntime) -> io::Result<()> {
    let mut args = env::args(&rt)?;
    args.next();
    let encodes = args.next().map_or(false, |word| word.as_str() == "encode");
    let rounds = args.next().map_or(0, |word| word.as_str().parse::<u64>().unwrap_or(0));
    let mut bytes = Vec::new(rt.alloc());
    rt.stdin().read_to_end(&mut bytes)?;
    let ops = operations(rt.alloc(), bytes.as_slice())?;
    let mut count = 0u64;
    let mut sum = 0u64;
    let start = Instant::now(&rt)?;
    for _ in 0..rounds {
        let (more, lengths) = if encodes { encode_all(ops.as_slice()) } else { decode_all(bytes.as_slice()) };
        count = count.wrapping_add(more);
        sum = sum.wrapping_add(lengths);
    }
    let time = start.elapsed(&rt)?.as_nanos();
    println!(rt; "{count} {sum} {time}")?;
    Ok(())
}
"""


def mix():
    """The bytes of the mix, and how many operations they are."""
    lines = [line[:24] for line in MIX.strip().splitlines()]
    return b"".join(bytes.fromhex(line) for line in lines), len(lines)


def run(program, kind, rounds, data, operations):
    """Seconds of so many rounds over the mix, by the clock and of the processor, and the average length of an operation."""
    before = resource.getrusage(resource.RUSAGE_CHILDREN).ru_utime
    done = subprocess.run([program, kind, str(rounds)], input=data, capture_output=True, check=True)
    spent = resource.getrusage(resource.RUSAGE_CHILDREN).ru_utime - before
    count, length, nanoseconds = map(int, done.stdout.split())
    if count != rounds * operations:
        sys.exit(f"{kind}: {count} operations of {rounds * operations}")
    return nanoseconds / 1e9, spent, length / max(count, 1)


def measure(program, kind, data, operations):
    rounds = 1
    while run(program, kind, rounds, data, operations)[0] < 0.5:
        rounds *= 2
    count = 2 * rounds * operations
    runs = [run(program, kind, 2 * rounds, data, operations) for _ in range(5)]
    seconds, length = min(r[0] for r in runs), runs[0][2]
    spent = min(r[1] for r in runs)
    print(f"{kind}: {count / seconds:,.0f} operations a second, {count / spent:,.0f} a second of processor time, {length:.2f} bytes each")


def main():
    data, operations = mix()
    with tempfile.TemporaryDirectory() as folder:
        program = built(folder, "operation_rounds", PROGRAM, ["m386_opmap", "m386_decode", "m386_encode"])
        for kind in ("decode", "encode"):
            measure(program, kind, data, operations)


main()
