#!/usr/bin/env python3
"""Times the reading of a client's bytes: nanoseconds a byte and peak memory, by the size of the pieces in which they come.

Run as bench/units.py [FOLDER]. It clones this repository (what is committed) into the folder, adds a program that feeds
its standard input, proves and builds it there with the crates that it stands on, and runs it. A folder that is given is
kept, so that a later run builds only what changed; with none a temporary one is used.
Prints what was measured; it judges nothing."""
import array
import fcntl
import os
import pathlib
import subprocess
import sys
import tempfile
import termios
import time

from building import build

MOST = 64 << 20
PIECES = (65_536, 100, 1)

PROGRAM = r"""//! Feeds standard input in pieces of so many bytes as the word says, and prints how many units came.
#![tactic(auto)]

ghost use Rattle.std.specs.Prelude.{◌≤◌, IfOk};

use imap_grammar::{Feed, Unit};
use std::alloc::Global;
use std::io::{Error, ErrorKind, Read};
use std::process::ExitCode;
use std::{env, io};

const BUFFER: usize = 65_536;

#[derive(Drop)]
struct Counts {
    announced: u64,
    commands: u64,
    refused: u64,
}

fn count(units: &[Unit], counts: &mut Counts) {
    for unit in units {
        match unit {
            Unit::Announce => counts.announced = counts.announced.saturating_add(1),
            Unit::Command(_, _) => counts.commands = counts.commands.saturating_add(1),
            Unit::Bad(_, _) | Unit::Large(_) => counts.refused = counts.refused.saturating_add(1),
        }
    }
}

fn feed_pieces(feed: &mut Feed, units: &mut Vec<Unit>, bytes: &[u8], size: usize, counts: &mut Counts) -> io::Result<()>
    requires { 1 ≤ size }
{
    for piece in bytes.chunks(size) {
        if feed.take(piece, units).is_err() {
            return Err(Error::from(ErrorKind::OutOfMemory));
        }
        count(units, counts);
        units.clear();
    }
    Ok(())
}

fn feed_all(rt: &HostRuntime, size: usize) -> io::Result<Counts>
    requires { 1 ≤ size }
{
    let alloc: Global = rt.alloc();
    let mut counts = Counts { announced: 0, commands: 0, refused: 0 };
    let mut feed = Feed::new(alloc);
    let mut units = Vec::new(alloc);
    let mut buffer = vec![in alloc; 0u8; BUFFER]?;
    for _ in 0..u64::MAX {
        let width = rt.reader().read(&mut buffer)?;
        if width == 0 {
            break;
        }
        feed_pieces(&mut feed, &mut units, buffer.get(..width).unwrap_or(&[]), size, &mut counts)?;
    }
    Ok(counts)
}

fn piece_size(rt: &HostRuntime) -> io::Result<usize>
    ensures { IfOk result (λ size. 1 ≤ size) }
{
    let mut words = env::args(rt)?;
    let _program = words.next();
    let words: Vec<String> = words.collect(rt.alloc())?;
    match words.first() {
        Some(word) => match word.parse::<usize>() {
            Ok(size) if size >= 1 => Ok(size),
            _ => Err(Error::from(ErrorKind::InvalidInput)),
        },
        None => Err(Error::from(ErrorKind::InvalidInput)),
    }
}

fn run(rt: &HostRuntime) -> io::Result<()> {
    let size = piece_size(rt)?;
    let counts = feed_all(rt, size)?;
    println!(rt; "{} {} {}", counts.announced, counts.commands, counts.refused)
}

fn main(rt: HostRuntime) -> ExitCode {
    match run(&rt) {
        Ok(()) => ExitCode::SUCCESS,
        Err(_) => ExitCode::FAILURE,
    }
}
"""

COMMANDS = [
    b"NOOP", b"SELECT INBOX", b"FETCH 1:* (FLAGS UID)", b"UID SEARCH UNSEEN SINCE 1-Apr-2024", b'LIST "" *',
    rb"STORE 1:4,7 +FLAGS.SILENT (\Seen)",
]


def long_line(begin, middle, end):
    """One command whose line has nearly 65,536 bytes."""
    return begin + middle * ((65_536 - len(begin) - len(end)) // len(middle)) + end + b"\r\n"


# Each input: its bytes as blocks, and the units that they are (announced, commands, refused).
def short_commands():
    block = b"".join(b"a%d %s\r\n" % (number, COMMANDS[number % len(COMMANDS)]) for number in range(6000))
    count = MOST // len(block)
    return [block] * count, (0, 6000 * count, 0)


def append():
    block = (b"It is read, and it is written down again.\r\n" * 25_000)[: 1 << 20]
    return [b"a APPEND INBOX {16777216}\r\n", *[block] * 16, b"\r\n"], (1, 1, 0)


def lines_of(line, good):
    count = MOST // len(line)
    return [line] * count, (0, count, 0) if good else (0, 0, count)


def many_literals():
    count = 64
    return [(b"a LIST " + b"x{0}\r\n" * 16_000 + b"\r\n")] * count, (16_000 * count, 0, count)


INPUTS = {
    "short commands": short_commands(),
    "an APPEND of 16 MiB": append(),
    "lines of ranges": lines_of(long_line(b"a FETCH 1", b",2:3", b" FLAGS"), True),
    "lines of items": lines_of(long_line(b"a FETCH 1 (UID", b" FLAGS", b")"), True),
    "lines of keywords": lines_of(long_line(b"a STORE 1 FLAGS (x", b" word", b")"), True),
    "lines of keys": lines_of(long_line(b"a SEARCH ALL", b" NOT SEEN", b""), True),
    "lines of parentheses": lines_of(long_line(b"a SEARCH ", b"(", b""), False),
    "quoted lines": lines_of(long_line(b'a SELECT "', rb"\"", b'"'), True),
    "16,000 literals a command": many_literals(),
}


def timed(program, path, size):
    """One run: processor seconds, and what it printed."""
    with path.open("rb") as bytes_in, subprocess.Popen([program, str(size)], stdin=bytes_in, stdout=subprocess.PIPE) as process:
        said = process.stdout.read()
        _, status, usage = os.wait4(process.pid, 0)
        process.returncode = os.waitstatus_to_exitcode(status)
    assert process.returncode == 0, process.returncode
    return usage.ru_utime + usage.ru_stime, tuple(map(int, said.split()))


def status_of(process, field):
    lines = pathlib.Path(f"/proc/{process.pid}/status").read_text().splitlines()
    return next(line.split()[1] for line in lines if line.startswith(field + ":"))


def peak_of(program, blocks, size):
    """The peak resident memory in MB of a run that has read all bytes and waits for more."""
    with subprocess.Popen([program, str(size)], stdin=subprocess.PIPE, stdout=subprocess.DEVNULL, bufsize=0) as process:
        for block in blocks:
            sent = 0
            while sent < len(block):
                sent += process.stdin.write(memoryview(block)[sent:])
        unread = array.array("i", [1])
        while unread[0] > 0 or status_of(process, "State") != "S":
            time.sleep(0.01)
            fcntl.ioctl(process.stdin, termios.FIONREAD, unread)
        peak = int(status_of(process, "VmHWM")) / 1000
        process.stdin.close()
    assert process.returncode == 0, process.returncode
    return peak


def main():
    with tempfile.TemporaryDirectory() as scratch:
        folder = pathlib.Path(sys.argv[1] if len(sys.argv) > 1 else scratch + "/clone").resolve()
        program = build(folder, "units_bench", "imap_grammar", PROGRAM, ["1"])
        path = pathlib.Path(scratch) / "bytes"
        for name, (blocks, units) in INPUTS.items():
            with path.open("wb") as out:
                out.writelines(blocks)
            length = path.stat().st_size
            for size in PIECES:
                seconds, counted = min(timed(program, path, size) for _ in range(3))
                assert counted == units, (name, size, counted, units)
                peak = peak_of(program, blocks, size)
                print(f"{name}, {length} bytes in pieces of {size}: {1e9 * seconds / length:.1f} ns a byte, peak {peak:.1f} MB")


main()
