#!/usr/bin/env python3
"""Measures cycles a second through the ticket arbiter, with one to four threads, beside a plain lock round the same record.

usage: bench/turns.py

A program over m386_arbiter, which this script proves and builds in a scratch repository, lets each thread write the first two bytes
of memory so many times, each cycle a turn of its own, and takes the time itself: from before the threads are started until the
last has ended. `arbiter`: each thread has a seat, whose bus waits for its turn. `lock`: the threads share a Mutex of std round the
Record, and each locks it for each cycle. Both keep the same cycles in the same record. The runs alternate, and the numbers are the best and
the middle one of five, by the clock; other work on the machine changes them.
"""
import os
import statistics
import subprocess
import sys
import tempfile

sys.path.insert(0, os.path.join(os.path.dirname(os.path.abspath(__file__)), "..", "tools"))
from built_program import built

CYCLES = 1_000_000

PROGRAM = """//! Cycles of several threads on one record, by the arbiter or under a lock. It prints how many the record has, and the nanoseconds.
#![tactic(auto)]
ghost use Rattle.std.specs.Prelude.{◌≡◌, ◌<◌, ◌≤◌, ℕ, [], All, false, length, vec_len, slice_index_or, IfOk};
ghost use Rattle.m386_base.specs.Bus.{IsAsk};
ghost use Rattle.m386_arbiter.specs.Ends.{AreSeats, IsOf, table_of};

use m386_arbiter::seats::{Arbiter, BusSeat};
use m386_base::ask::{Ask, Role, Space};
use m386_base::bus::Bus;
use m386_base::fault::NoMemory;
use m386_base::split::{Piece, spread};
use m386_memory::history::Record;
use m386_memory::store::Store;
use std::alloc::{AllocError, Global};
use std::env;
use std::io;
use std::rt::Clock;
use std::sync::{Mutex, Wait};
use std::thread::{self, Threads};
use std::time::Instant;

/// A write of the first two bytes of memory.
fn word(value: u32) -> Ask
    ensures lawful { IsAsk result }
    ensures joined { result.joined ≡ false }
{
    let piece = Piece {
        addr: 0,
        enables: 3,
        place: 0,
    };
    Ask {
        space: Space::Memory,
        write: true,
        joined: false,
        role: Role::Operand,
        part: 0,
        addr: 0,
        enables: 3,
        value: spread(piece, value),
    }
}

/// A record of 4,096 bytes.
fn empty(alloc: Global) -> Result<Record, NoMemory>
    ensures { IfOk result (λ r. r.cycles ≡ []) }
{
    Ok(Record::new(alloc, Store::new(alloc, 4096)?))
}

/// So many cycles on a bus, or fewer where there is no memory.
fn write_on<B: Bus>(bus: &mut B, cycles: u32)
    requires free { (B.view bus.old).kept ≡ false }
    ensures free { (B.view bus.new).kept ≡ false }
    ensures origin { (B.view bus.new).origin ≡ (B.view bus.old).origin }
{
    for count in 0..cycles {
        if bus.cycle(word(count), false).is_err() {
            return;
        }
    }
}

/// The same at a seat.
fn write_at<R: Wait>(rt: &R, arbiter: &Arbiter, seat: BusSeat, cycles: u32) -> BusSeat
    requires { seat.seat.table_id ≡ table_of arbiter.now }
    ensures { IsOf seat result }
{
    let mut bus = seat.bus(rt, arbiter);
    write_on(&mut bus, cycles);
    bus.seat()
}

/// The same at each seat, in a thread of its own.
fn write_at_each<R: Threads + Wait + Sync>(
    rt: &R,
    arbiter: &Arbiter,
    seats: Vec<BusSeat>,
    cycles: u32,
) -> Result<Vec<BusSeat>, AllocError>
    requires { AreSeats (table_of arbiter.now) 0 seats.items }
    ensures len { IfOk result (λ v. vec_len v ≡ vec_len seats) }
    ensures each { IfOk result (λ v. (i : ℕ) (d : _) → i < vec_len seats → IsOf (slice_index_or seats.items i d) (slice_index_or v.items i d)) }
{
    thread::map_vec(
        rt,
        seats,
        &|seat| -> BusSeat
            requires { seat.seat.table_id ≡ table_of arbiter.now }
            ensures { IsOf seat result }
        { write_at(rt, arbiter, seat, cycles) },
    )
}

/// The same, where the seats that come back are the arbiter's again.
fn write_in_threads<R: Threads + Wait + Sync>(
    rt: &R,
    arbiter: &Arbiter,
    seats: Vec<BusSeat>,
    cycles: u32,
) -> Result<Vec<BusSeat>, AllocError>
    requires { AreSeats (table_of arbiter.now) 0 seats.items }
    ensures { IfOk result (λ r. (length r.items ≡ length seats.items) × AreSeats (table_of arbiter.now) 0 r.items) }
{
    let done = write_at_each(rt, arbiter, seats, cycles)?;
    Ok(done)
}

/// Nanoseconds of a run by the arbiter, and the record.
fn by_arbiter<R: Threads + Wait + Sync + Clock>(
    rt: &R,
    alloc: Global,
    threads: u8,
    cycles: u32,
) -> io::Result<(Record, u128)>
    requires { (0 < threads) × (threads ≤ 8) }
{
    let first = empty(alloc).map_err(|_| AllocError)?;
    let (arbiter, seats) = Arbiter::make(alloc, first, threads).map_err(|_| AllocError)?;
    let start = Instant::now(rt)?;
    let seats = write_in_threads(rt, &arbiter, seats, cycles)?;
    let time = start.elapsed(rt)?.as_nanos();
    Ok((arbiter.close(seats), time))
}

/// So many cycles of a processor, with the lock taken for each.
fn write_under<R: Wait>(rt: &R, shared: &Mutex<Record>, cpu: u8, cycles: u32) {
    for count in 0..cycles {
        if shared.lock(rt).put(cpu, word(count)).is_err() {
            return;
        }
    }
}

/// Nanoseconds of a run under a lock, and the record.
fn by_lock<R: Threads + Wait + Sync + Clock>(
    rt: &R,
    alloc: Global,
    threads: u8,
    cycles: u32,
) -> io::Result<(Record, u128)> {
    let shared = Mutex::new(empty(alloc).map_err(|_| AllocError)?);
    let mut cpus = Vec::new(alloc);
    for cpu in 0..threads {
        cpus.push(cpu)?;
    }
    let start = Instant::now(rt)?;
    thread::map_vec(rt, cpus, &|cpu| write_under(rt, &shared, cpu, cycles))?;
    let time = start.elapsed(rt)?.as_nanos();
    Ok((shared.into_inner(), time))
}

fn main(rt: HostRuntime) -> io::Result<()> {
    let mut args = env::args(&rt)?;
    args.next();
    let locked = args.next().map_or(false, |word| word.as_str() == "lock");
    let threads = args.next().map_or(1, |word| word.as_str().parse::<u8>().unwrap_or(1)).clamp(1, 8);
    let cycles = args.next().map_or(0, |word| word.as_str().parse::<u32>().unwrap_or(0));
    let (record, time) = if locked { by_lock(&rt, rt.alloc(), threads, cycles)? } else { by_arbiter(&rt, rt.alloc(), threads, cycles)? };
    let made = record.cycles().len();
    println!(rt; "{made} {time}")?;
    Ok(())
}
"""

# That seats and the record may go to other threads, and that seats which come back are the arbiter's again.
PROOFS = {
    "Lib.antt": "",
    "write_on/Invariants.antt": """use Rattle.std.proofs.Common.{◌≡◌, false}
use Rattle.turn_rounds.proofs.write_on.Given as goal

abbrev pub invariant-loop-count : goal.invariant-loop-count
invariant-loop-count g l = record {
  free : (g.B.Bus.view l.bus).kept ≡ false;
  origin : (g.B.Bus.view l.bus).origin ≡ (g.B.Bus.view l.initial.bus).origin;
}
""",
    "write_at_each/Answers.antt": """use denote.Param.Send.{sendable}
use Rattle.m386_arbiter.proofs.Gathering.{seat_at}
use Rattle.m386_arbiter.proofs.Sent.{bus_seat_send, arbiter_sync}
use Rattle.turn_rounds.proofs.write_at_each.Goals as goal

pub map_vec-requires-after_bounds : goal.map_vec-requires-after_bounds
map_vec-requires-after_bounds g c κs within = λ i x l e. (seat_at _ _ c.args.seats.items i x c.requires l e).0

pub map_vec-requires-send-J : goal.map_vec-requires-send-J
map_vec-requires-send-J g c κs within = search (sendable, bus_seat_send) depth 12

pub map_vec-requires-send-X : goal.map_vec-requires-send-X
map_vec-requires-send-X g c κs within = search (sendable, bus_seat_send) depth 12

pub map_vec-requires-sync-F : goal.map_vec-requires-sync-F
map_vec-requires-sync-F g c κs within = let r = c.type_bounds.sync-R in search (sendable, arbiter_sync) depth 30
""",
    "write_in_threads/Answers.antt": """use Rattle.std.proofs.Common.{◌≡◌, ◌<◌, ℕ, length, rules, sym, ◌∙◌, vec_len, arith, get_or}
use Rattle.m386_arbiter.specs.declared.seats.BusSeat.{BusSeat}
use Rattle.m386_arbiter.specs.Ends.{IsOf}
use Rattle.m386_arbiter.proofs.Gathering.{same_seats}
use Rattle.turn_rounds.proofs.write_in_threads.Goals as goal

pub returns : goal.returns
returns g c =
    let e = c.in_ok-done.ensures in
    let new : vec_len c.in_ok-done.done ≡ length c.in_ok-done.done.items = search rules in
    let old : vec_len c.args.seats ≡ length c.args.seats.items = search rules in
    let l : length c.in_ok-done.done.items ≡ length c.args.seats.items = sym new ∙ e.len ∙ old in
    let each : (i : ℕ) (d : BusSeat) → i < length c.args.seats.items → IsOf (get_or c.args.seats.items i d) (get_or c.in_ok-done.done.items i d) = λ i d b. let b' : i < vec_len c.args.seats = omega arith in e.each i d b' in
    (l, same_seats _ 0 c.args.seats.items c.in_ok-done.done.items c.requires l each)
""",
}


def run(program, kind, threads):
    """Cycles a second of a run in which the threads make `CYCLES` in all."""
    each = CYCLES // threads
    done = subprocess.run([program, kind, str(threads), str(each)], capture_output=True, check=True)
    made, nanoseconds = map(int, done.stdout.split())
    if made != each * threads:
        sys.exit(f"{kind}, {threads} threads: {made} cycles of {each * threads}")
    return made / nanoseconds * 1e9


def main():
    with tempfile.TemporaryDirectory() as folder:
        program = built(folder, "turn_rounds", PROGRAM, ["m386_base", "m386_memory", "m386_arbiter"], PROOFS)
        for threads in (1, 2, 3, 4):
            runs = [[run(program, kind, threads) for kind in ("arbiter", "lock")] for _ in range(5)]
            for kind, rates in zip(("arbiter", "lock"), zip(*runs)):
                print(f"{kind}, {threads} threads: {max(rates):,.0f} cycles a second, {statistics.median(rates):,.0f} in the middle run of five")


if __name__ == "__main__":
    main()
