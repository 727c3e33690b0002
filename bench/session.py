#!/usr/bin/env python3
"""Times sessions of the built imapd over a unix mailbox of 10,000 messages and 48 MB, beside `wc -l` and `grep` of the same file.

Run from anywhere, after ./run imapd has built the program: bench/session.py
Prints what was measured; it judges nothing."""
import pathlib
import subprocess
import sys
import tempfile
import time

TOP = pathlib.Path(__file__).resolve().parent.parent
IMAPD = TOP / "crates/imapd/out/imapd"
COUNT = 10_000
SIZE = 4_800


def message(number):
    """One message of a mailing list, with a delimiter line."""
    day = 1 + number % 28
    head = (
        f"From list@example.org Mon Apr {day:2} {number % 24:02}:{number % 60:02}:00 2024\n"
        f"Received: from mx{number % 7}.example.org by mail.example.net; Mon, {day} Apr 2024 12:00:00 +0000\n"
        f"Date: Mon, {day} Apr 2024 12:00:00 +0000\n"
        f"From: Writer {number % 211} <writer{number % 211}@example.org>\n"
        "To: list@example.org\n"
        f"Subject: Re: matter {number % 97} of the day\n"
        f"Message-ID: <{number}@example.org>\n"
        "\n"
    )
    lines, length = [head], len(head)
    while length < SIZE:
        line = f"It is read, and it is written down again {'and on ' * ((number + length) % 6)}{length}\n"
        lines.append(line)
        length += len(line)
    return "".join(lines) + "\n"


class Session:
    """A session of the program, and the tagged commands that it is given."""

    def __init__(self, root):
        self.process = subprocess.Popen([IMAPD, root], stdin=subprocess.PIPE, stdout=subprocess.PIPE)
        self.process.stdout.readline()

    def ask(self, command):
        """The wall seconds up to the last line of the reply, and how many lines stand before it."""
        start, lines = time.perf_counter(), 0
        self.process.stdin.write(b"a " + command + b"\r\n")
        self.process.stdin.flush()
        for line in self.process.stdout:
            if line.startswith(b"a "):
                assert line.startswith(b"a OK "), line
                return time.perf_counter() - start, lines
            lines += 1
        raise EOFError

    def peak(self):
        """The peak resident memory in MB."""
        status = pathlib.Path(f"/proc/{self.process.pid}/status").read_text()
        return next(int(line.split()[1]) for line in status.splitlines() if line.startswith("VmHWM:")) / 1000

    def end(self):
        self.ask(b"LOGOUT")
        self.process.stdin.close()
        assert self.process.wait() == 0


def best(times, seconds):
    return min(seconds() for _ in range(times))


def wc_seconds(path):
    start = time.perf_counter()
    subprocess.run(["wc", "-l", path], stdout=subprocess.PIPE, check=True)
    return time.perf_counter() - start


def grep_seconds(path):
    start = time.perf_counter()
    subprocess.run(["grep", "-c", "-i", "-F", "no such words", path], stdout=subprocess.PIPE)
    return time.perf_counter() - start


def search(root, path):
    """Searches that need no text, headers and texts; a unix mailbox has its texts in memory."""
    grep = best(5, lambda: grep_seconds(path))
    print(f"grep -c -i -F: {1000 * grep:.1f} ms")
    session = Session(root)
    session.ask(b"EXAMINE INBOX")
    for keys in (b"ALL", b"UNSEEN", b"SINCE 3-Apr-2024", b'SUBJECT "matter 96"', b"FROM writer7@", b'TEXT "no such words"'):
        seconds = best(5, lambda: session.ask(b"SEARCH " + keys)[0])
        print(f"SEARCH {keys.decode()}: {1000 * seconds:.1f} ms, {seconds / grep:.2f} times grep")
    session.end()


def opened(root, command):
    """The seconds that a fresh session takes for a command, and its peak memory."""
    session = Session(root)
    seconds, _ = session.ask(command)
    peak = session.peak()
    session.end()
    return seconds, peak


def main():
    if not IMAPD.is_file():
        sys.exit("bench: build the program first: ./run imapd DIR")
    with tempfile.TemporaryDirectory() as root:
        path = pathlib.Path(root) / "INBOX"
        path.write_text("".join(message(number) for number in range(COUNT)))
        size = path.stat().st_size / 1e6
        wc = best(9, lambda: wc_seconds(path))
        print(f"INBOX: {size:.1f} MB, {COUNT} messages; wc -l {1000 * wc:.1f} ms, with its start")
        for name in (b"EXAMINE INBOX", b"SELECT INBOX", b"SELECT INBOX"):
            seconds, peak = opened(root, name)
            print(f"{name.decode()}: {1000 * seconds:.1f} ms, {seconds / wc:.1f} times wc -l; peak {peak:.1f} MB, {peak / size:.2f} times the file")
        session = Session(root)
        session.ask(b"SELECT INBOX")
        seconds, lines = session.ask(b"FETCH 1:* (UID FLAGS RFC822.SIZE)")
        assert lines == COUNT, lines
        print(f"FETCH 1:* (UID FLAGS RFC822.SIZE): {1000 * seconds:.1f} ms, {lines / seconds:,.0f} lines a second")
        for command in (b"STORE 5000 +FLAGS (\\Flagged)", b"STORE 1:* +FLAGS.SILENT (\\Flagged)", b"STORE 1:* +FLAGS.SILENT (\\Flagged)"):
            seconds, _ = session.ask(command)
            print(f"{command.decode()}: {1000 * seconds:.1f} ms, {seconds / wc:.1f} times wc -l")
        seconds = sum(session.ask(b"NOOP")[0] for _ in range(100))
        print(f"100 NOOPs: {1000 * seconds:.1f} ms; peak {session.peak():.1f} MB")
        session.end()
        search(root, path)


main()
