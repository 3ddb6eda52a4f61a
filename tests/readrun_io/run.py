#!/usr/bin/env python3
"""Input and output of `readrun`: where a read or a write fails, what is printed, and the status.

    python3 tests/readrun_io/run.py      a line for each case, then 'N cases, N as they should be'; status 1 where one is not

Tried are the program (target/bin/readrun) and the script (./readrun). Calls that fail in the middle are made by calls.c,
which is loaded before the C library. The cases of a first use (first_use.py) run in a copy with a stub for `rt`.
"""
import os
import pty
import resource
import signal
import subprocess
import sys
import tempfile

sys.dont_write_bytecode = True
from first_use import first_use
from trial import EXAMPLES, FIRST_USE, HERE, PROGRAM, ROOT, SCRIPT, UNREAD, UNWRITTEN, WAIT, alive, both, ended, example, judge
from trial import on_terminal, run, started, until, verdicts


def faulty(calls):
    return dict(os.environ, LD_PRELOAD=LIBRARY, CALLS=calls)


def whole_readings():
    for name in sorted(os.listdir(EXAMPLES)):
        if name.endswith(".run"):
            reading = example(name[:-4] + ".reading")
            both(name, reading, b"", 0, sent=example(name))
            judge(f"{name}, named", run([SCRIPT, os.path.join(EXAMPLES, name)]), (reading, b"", 0))
    judge("a dash", run([SCRIPT, "-"], sent=example("worked.run")), (example("worked.reading"), b"", 0))
    both("no byte, refused", b"refused 1 0\n", b"", 0, sent=b"")
    both("65,536 bytes", b"refused 2 0\n", b"", 0, sent=bytes(65536))
    both("65,537 bytes", b"long\n", b"", 0, sent=bytes(65537))
    both("a million bytes, all taken from the pipe", b"long\n", b"", 0, sent=bytes(1000000))


def failed_reads():
    folder = os.open(EXAMPLES, os.O_RDONLY)
    both("a folder as input", b"", UNREAD, 2, stdin=folder)
    os.close(folder)
    judge("closed input, program", run(["bash", "-c", f"'{PROGRAM}' <&-"]), (b"", UNREAD, 0))
    judge("closed input, script", run(["bash", "-c", f"'{SCRIPT}' <&-"])[::2], (b"", 2))
    judge("closed input, a named run", run(["bash", "-c", f"'{SCRIPT}' '{EXAMPLES}/worked.run' <&-"]), (example("worked.reading"), b"", 0))
    idle, writer = os.pipe()
    os.set_blocking(idle, False)
    both("an input that does not wait", b"", UNREAD, 2, stdin=idle)
    os.close(idle), os.close(writer)
    for calls in "read=1", "read=2", "short=20 read=4", "short=20 interrupt read=4", "short=73 read=3":
        both(f"a read fails ({calls})", b"", UNREAD, 2, sent=example("worked.run"), env=faulty(calls))
    for calls in "read=2", "short=50000 read=3", "read=5":
        both(f"a read of a long run fails ({calls})", b"", UNREAD, 2, sent=bytes(200000), env=faulty(calls))
    for calls in "short=1", "short=7", "interrupt", "short=1 interrupt", "short=5 interrupt":
        both(f"a whole reading ({calls})", example("worked.reading"), b"", 0, sent=example("worked.run"), env=faulty(calls))
    for program in PROGRAM, SCRIPT:
        near, far = pty.openpty()
        os.write(far, b"cut off\n")
        os.close(far)
        judge(f"a line that is cut off, {os.path.relpath(program, ROOT)}", run([program], stdin=near)[:2], (b"", UNREAD))
        os.close(near)


def failed_writes():
    worked = example("worked.run")
    with open("/dev/full", "wb") as full:
        both("a full device", None, UNWRITTEN, 2, sent=worked, stdout=full)
    judge("closed output, program", run(["bash", "-c", f"'{PROGRAM}' >&-"], sent=worked), (b"", UNWRITTEN, 0))
    judge("closed output, script", run(["bash", "-c", f"'{SCRIPT}' >&-"], sent=worked)[::2], (b"", 2))
    judge("nothing open", run(["bash", "-c", f"'{SCRIPT}' <&- >&- 2>&-"]), (b"", b"", 2))
    judge("closed errors", run(["bash", "-c", f"'{SCRIPT}' 2>&-"], sent=worked), (example("worked.reading"), b"", 0))
    both("the first write fails", b"", UNWRITTEN, 2, sent=worked, env=faulty("write=1"))
    both("a later write fails", example("worked.reading")[:40], UNWRITTEN, 2, sent=worked, env=faulty("short=20 write=3"))
    for calls, said, status in ("sync", UNWRITTEN, 2), ("", b"", 0):
        with tempfile.TemporaryFile() as file:
            both(f"a file that {'cannot be' if calls else 'is'} stored", None, said, status, sent=worked, stdout=file, env=faulty(calls))
            file.seek(0)
            judge("all of the text is in it, twice", file.read(), 2 * example("worked.reading"))
    for program in PROGRAM, SCRIPT:
        for restored in True, False:
            reader, writer = os.pipe()
            os.close(reader)
            got = run([program], sent=worked, stdout=writer, restore_signals=restored)
            os.close(writer)
            judge(f"nobody reads, {os.path.relpath(program, ROOT)}" + ("" if restored else ", signal ignored"), got[1:], (b"", 128 + signal.SIGPIPE))
    first = run(["bash", "-c", f"set -o pipefail; '{SCRIPT}' '{EXAMPLES}/full.run' | head -n 1"])
    judge("the first line alone", (first[:2], first[2] in (0, 141)), ((example("full.reading").split(b"\n")[0] + b"\n", b""), True))


def arguments():
    worked = os.path.join(EXAMPLES, "worked.run")
    judge("an empty name", run([SCRIPT, ""]), (b"", b"readrun: the name of the file is empty\n", 2))
    judge("no such file", run([SCRIPT, "no.run"]), (b"", b"readrun: there is no file no.run\n", 2))
    judge("a folder", run([SCRIPT, "examples"], cwd=ROOT), (b"", b"readrun: examples is a folder, not a run\n", 2))
    judge("two arguments", run([SCRIPT, worked, worked]), (b"", b"readrun: usage: ./readrun [FILE]\n", 2))
    judge("help", run([SCRIPT, "--help"])[1:], (b"", 0))
    reading = (example("worked.reading"), b"", 0)
    with tempfile.TemporaryDirectory() as folder:
        os.symlink(SCRIPT, os.path.join(folder, "first"))
        os.symlink("first", os.path.join(folder, "second link"))
        os.symlink(ROOT, os.path.join(folder, "whole"))
        judge("a link", run([os.path.join(folder, "first"), worked]), reading)
        judge("a link to a link, from elsewhere", run(["./second link", worked], cwd=folder), reading)
        judge("a link on PATH", run(["env", f"PATH={folder}:{os.environ['PATH']}", "first", worked], cwd="/"), reading)
        judge("a linked folder", run(["whole/readrun", "whole/examples/worked.run"], cwd=folder), reading)


def terminals_and_signals():
    for program in PROGRAM, SCRIPT:
        judge(f"one end of input after a line, {os.path.relpath(program, ROOT)}", on_terminal([program], [b"abc\n", b"\4"]), (b"refused 2 0\n", b"", 0))
    judge("an interrupt from the terminal", on_terminal([SCRIPT], [b"abc\n", b"\3"]), (b"", b"", -signal.SIGINT))
    with tempfile.TemporaryDirectory() as folder:
        for number in signal.SIGTERM, signal.SIGHUP, signal.SIGINT:
            process = started([SCRIPT], stdin=subprocess.PIPE, cwd=folder)
            until(lambda: alive(folder, PROGRAM))
            process.send_signal(number)
            process.wait(WAIT)
            judge(f"{number.name}, and nothing goes on", (process.returncode, alive(folder)), (-number, []))
            process.stdin.close()
        process = started([SCRIPT], stdin=subprocess.PIPE, cwd=folder)
        until(lambda: alive(folder, PROGRAM))
        for number in alive(folder, PROGRAM):
            os.kill(number, signal.SIGKILL)
        judge("a program that is killed", ended(process), (b"", b"readrun: the program was ended by signal 9\n", 137))


def with_stack(words, size):
    return run(words, sent=example("full.run"), preexec_fn=lambda: resource.setrlimit(resource.RLIMIT_STACK, (size, size)))


def stacks():
    """docs/TRUST.md has how much the program needs. With less the system ends it before it writes."""
    judge("a stack of 1 MiB", with_stack([PROGRAM], 1 << 20), (example("full.reading"), b"", 0))
    judge("a stack of 512 KiB, program", with_stack([PROGRAM], 1 << 19), (b"", b"", -signal.SIGSEGV))
    judge("a stack of 512 KiB, script", with_stack([SCRIPT], 1 << 19), (b"", b"readrun: the program was ended by signal 11\n", 139))


if __name__ == "__main__":
    # A command that is started in the background ignores these, and so would all that it starts.
    for number in signal.SIGINT, signal.SIGHUP, signal.SIGTERM:
        signal.signal(number, signal.SIG_DFL)
    with tempfile.TemporaryDirectory() as made:
        LIBRARY = os.path.join(made, "calls.so")
        subprocess.run(["cc", "-shared", "-fPIC", "-O1", "-o", LIBRARY, os.path.join(HERE, "calls.c")], check=True)
        # Where the program was built by another command, the script's first use says so.
        judge("the script", run([SCRIPT, os.path.join(EXAMPLES, "worked.run")], seconds=FIRST_USE)[::2], (example("worked.reading"), 0))
        whole_readings()
        failed_reads()
        failed_writes()
        arguments()
        terminals_and_signals()
        stacks()
        first_use()
    print(f"{len(verdicts)} cases, {sum(verdicts)} as they should be")
    sys.exit(not all(verdicts))
