#!/usr/bin/env python3
"""Times the text forms: MB/s and peak memory of each form, on texts of 16 MiB.

Run as bench/forms.py [FOLDER]. It clones this repository (what is committed) into the folder, adds a program that puts
its standard input into a form, proves and builds it there with the crates that it stands on, and runs it. A folder that
is given is kept, so that a later run builds only what changed; with none a temporary one is used.
Prints what was measured; it judges nothing."""
import os
import pathlib
import subprocess
import sys
import tempfile

from building import build

MOST = 16 << 20
ROUNDS = 4
FORMS = ("keep_lines", "store_lf", "unix_form", "mmdf_form")

PROGRAM = r"""//! Puts standard input into a form as often as the second word says, and prints how many bytes came out.
#![tactic(auto)]

use std::alloc::{AllocError, Global};
use std::io::{Error, ErrorKind, Read};
use std::process::ExitCode;
use std::{env, io};
use text_forms::{keep_lines, mmdf_form, store_lf, unix_form};

fn formed(alloc: Global, form: &str, text: &[u8]) -> Result<Vec<u8>, AllocError> {
    match form {
        "keep_lines" => keep_lines(alloc, text),
        "store_lf" => store_lf(alloc, text),
        "unix_form" => unix_form(alloc, text),
        _ => mmdf_form(alloc, text),
    }
}

fn words(rt: &HostRuntime) -> io::Result<(String, u64)> {
    let mut words = env::args(rt)?;
    let _program = words.next();
    let mut words: Vec<String> = words.collect(rt.alloc())?;
    let rounds = match words.pop() {
        Some(word) => word.parse::<u64>().unwrap_or(1),
        None => 1,
    };
    match words.pop() {
        Some(form) => Ok((form, rounds)),
        None => Err(Error::from(ErrorKind::InvalidInput)),
    }
}

fn run(rt: &HostRuntime) -> io::Result<()> {
    let alloc = rt.alloc();
    let (form, rounds) = words(rt)?;
    let mut text = Vec::new(alloc);
    rt.reader().read_to_end(&mut text)?;
    let mut length = text.len();
    for _ in 0..rounds {
        length = match formed(alloc, form.as_str(), text.as_slice()) {
            Ok(bytes) => bytes.len(),
            Err(_) => return Err(Error::from(ErrorKind::OutOfMemory)),
        };
    }
    println!(rt; "{length}")
}

fn main(rt: HostRuntime) -> ExitCode {
    match run(&rt) {
        Ok(()) => ExitCode::SUCCESS,
        Err(_) => ExitCode::FAILURE,
    }
}
"""

WORDS = b"It is read, and it is written down again, and then it is kept as it is."


def lines(end):
    """Lines of 40 to 70 bytes, some of which begin with what a delimiter line begins with."""
    made = []
    for number in range(4000):
        width = 40 + number * 7 % 31 - len(end)
        begin = b"From time to time " if number % 17 == 3 else b""
        made.append((begin + WORDS)[:width] + end)
    return b"".join(made)


HEADER = b"From: a writer <writer@example.org>\r\nTo: b\r\nStatus: RO\r\nSubject: of lines\r\n\r\n"


def repeated(block, begin=b""):
    return [begin, *[block] * (MOST // len(block))]


# Each input as blocks.
INPUTS = {
    "lines of 40 to 70 bytes that LF ends": repeated(lines(b"\n"), HEADER),
    "lines of 40 to 70 bytes that CRLF ends": repeated(lines(b"\r\n"), HEADER),
    "a header of such lines": repeated(b"".join(b"X-Field-%d: %s\r\n" % (n, WORDS[: 28 + n % 31]) for n in range(4000))),
    "empty lines": repeated(b"\n" * 65_536, HEADER),
    "delimiter lines": repeated(b"From a@example.org Mon Apr  1 12:00:00 2024\n" * 1000, HEADER),
    "one line": repeated(b"x" * 65_536),
}


def timed(program, path, form, rounds):
    """One run: processor seconds, peak memory in MB, and the length that it printed."""
    words = [program, form, str(rounds)]
    with path.open("rb") as text, subprocess.Popen(words, stdin=text, stdout=subprocess.PIPE) as process:
        said = process.stdout.read()
        _, status, usage = os.wait4(process.pid, 0)
        process.returncode = os.waitstatus_to_exitcode(status)
    assert process.returncode == 0, process.returncode
    return usage.ru_utime + usage.ru_stime, usage.ru_maxrss / 1000, int(said)


def main():
    with tempfile.TemporaryDirectory() as scratch:
        folder = pathlib.Path(sys.argv[1] if len(sys.argv) > 1 else scratch + "/clone").resolve()
        program = build(folder, "forms_bench", "text_forms", PROGRAM, ["keep_lines", "1"])
        path = pathlib.Path(scratch) / "text"
        for name, blocks in INPUTS.items():
            with path.open("wb") as out:
                out.writelines(blocks)
            length = path.stat().st_size
            for form in FORMS:
                read = min(timed(program, path, form, 0)[0] for _ in range(3))
                seconds, peak, made = min(timed(program, path, form, ROUNDS) for _ in range(3))
                speed = ROUNDS * length / 1e6 / max(seconds - read, 1e-3)
                print(f"{form}, {name}: {speed:.0f} MB/s, peak {peak:.0f} MB, {length} bytes become {made}", flush=True)


main()
