#!/usr/bin/env python3
"""Times the search for a string in texts of 48 MiB: GB/s, and how many times as long as a plain loop over the bytes takes.

Run as bench/search.py [FOLDER]. It clones this repository (what is committed) into the folder, adds a program that looks
for a string in its standard input, proves and builds it there with the crates that it stands on, and runs it. A folder
that is given is kept, so that a later run builds only what changed; with none a temporary one is used.
Prints what was measured, beside `grep -c -i -F` on mail; it judges nothing."""
import os
import pathlib
import subprocess
import sys
import tempfile

from building import build

MOST = 48 << 20
ROUNDS = 8

PROGRAM = r"""//! Looks for the first word in standard input, as often as the second word says; without a first word it counts
//! line feeds by a plain loop. Prints how often the word was found, or the count.
#![tactic(auto)]

use std::alloc::{AllocError, Global};
use std::io::{Error, ErrorKind, Read};
use std::process::ExitCode;
use std::{env, io};
use text_search::contains;

fn feeds(text: &[u8]) -> u64 {
    let mut count: u64 = 0;
    for byte in text {
        if *byte == b'\n' {
            count = count.wrapping_add(1);
        }
    }
    count
}

fn found(alloc: Global, needle: &str, text: &[u8]) -> Result<u64, AllocError> {
    if needle.is_empty() {
        return Ok(feeds(text));
    }
    if contains(alloc, text, needle.as_bytes())? { Ok(1) } else { Ok(0) }
}

fn words(rt: &HostRuntime) -> io::Result<(String, u64)> {
    let mut words = env::args(rt)?;
    let _program = words.next();
    let mut words: Vec<String> = words.collect(rt.alloc())?;
    let rounds = match words.pop() {
        Some(word) => word.parse::<u64>().unwrap_or(1),
        None => 1,
    };
    match words.pop() {
        Some(needle) => Ok((needle, rounds)),
        None => Err(Error::from(ErrorKind::InvalidInput)),
    }
}

fn run(rt: &HostRuntime) -> io::Result<()> {
    let alloc = rt.alloc();
    let (needle, rounds) = words(rt)?;
    let mut text = Vec::new(alloc);
    rt.reader().read_to_end(&mut text)?;
    let mut all: u64 = 0;
    for _ in 0..rounds {
        match found(alloc, needle.as_str(), text.as_slice()) {
            Ok(count) => all = all.wrapping_add(count),
            Err(_) => return Err(Error::from(ErrorKind::OutOfMemory)),
        }
    }
    println!(rt; "{all}")
}

fn main(rt: HostRuntime) -> ExitCode {
    match run(&rt) {
        Ok(()) => ExitCode::SUCCESS,
        Err(_) => ExitCode::FAILURE,
    }
}
"""

MESSAGE = (
    b"Date: Mon, 1 Apr 2024 12:00:00 +0000\nFrom: A Writer <writer@example.org>\nTo: reader@example.org\n"
    b"Subject: What was said of it on Thursday\nMessage-ID: <%d@example.org>\n\n"
)
BODY = b"It is read, and it is written down again, and then it is kept as it is.\nNothing of it is lost on the way.\n" * 40


def mail():
    return b"".join(MESSAGE % number + BODY for number in range(MOST // (len(MESSAGE) + len(BODY))))


def repeated(block):
    return block * (MOST // len(block))


# Texts, and strings that they don't have.
CASES = {
    "mail": (mail(), ["Zeppelin", "kept as it wasn't", "On the way, nothing of it was ever lost", "Q"]),
    "one letter": (repeated(b"a"), ["a" * 31 + "b", "a" * 1000 + "b", "a" * 65_535 + "b"]),
    "aab": (repeated(b"aab"), ["aab" * 10 + "aabbb"]),
    "abab": (repeated(b"ab"), ["ab" * 15 + "bb"]),
    "31 letters and another": (repeated(b"a" * 31 + b"x"), ["a" * 32, "a" * 33]),
    "abc, over and over and then x": (repeated(b"abc" * 19 + b"x"), ["abc" * 20]),
}


def timed(words, path):
    """One run: processor seconds, and what it printed."""
    with path.open("rb") as text, subprocess.Popen(words, stdin=text, stdout=subprocess.PIPE) as process:
        said = process.stdout.read()
        _, status, usage = os.wait4(process.pid, 0)
        process.returncode = os.waitstatus_to_exitcode(status)
    return usage.ru_utime + usage.ru_stime, said.split()


def seconds_of(program, needle, path):
    """Of one look for the string, without the reading of the text."""
    read = min(timed([program, needle, "0"], path)[0] for _ in range(3))
    seconds, said = min(timed([program, needle, str(ROUNDS)], path) for _ in range(3))
    assert not needle or said == [b"0"], said
    return max(seconds - read, 1e-3) / ROUNDS


def main():
    with tempfile.TemporaryDirectory() as scratch:
        folder = pathlib.Path(sys.argv[1] if len(sys.argv) > 1 else scratch + "/clone").resolve()
        program = build(folder, "search_bench", "text_search", PROGRAM, ["x", "1"])
        path = pathlib.Path(scratch) / "text"
        for name, (text, needles) in CASES.items():
            path.write_bytes(text)
            plain = seconds_of(program, "", path)
            print(f"{name}: plain loop {len(text) / 1e9 / plain:.1f} GB/s", flush=True)
            for needle in needles:
                seconds = seconds_of(program, needle, path)
                shown = needle if len(needle) <= 40 else f"{needle[:8]}.. of {len(needle)} bytes"
                line = f"{name}, {shown}: {len(text) / 1e9 / seconds:.1f} GB/s, {seconds / plain:.1f} times the plain loop"
                if name == "mail":
                    grep = min(timed(["grep", "-c", "-i", "-F", needle], path)[0] for _ in range(3))
                    line += f"; grep {len(text) / 1e9 / grep:.1f} GB/s"
                print(line, flush=True)


main()
