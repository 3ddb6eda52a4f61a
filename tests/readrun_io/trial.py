"""What the cases have in common: how a program is run, and how what came of it is judged."""
import os
import pty
import subprocess
import time

HERE = os.path.dirname(os.path.abspath(__file__))
ROOT = os.path.dirname(os.path.dirname(HERE))
PROGRAM = os.path.join(ROOT, "target/bin/readrun")
SCRIPT = os.path.join(ROOT, "readrun")
EXAMPLES = os.path.join(ROOT, "examples")
UNREAD = b"readrun: the run could not be read\n"
UNWRITTEN = b"readrun: the reading could not be written\n"
# Seconds after which a case has hung; and a first use, which proves and builds the program.
WAIT = 20
FIRST_USE = 600

verdicts = []


def judge(name, got, wanted):
    verdicts.append(got == wanted)
    print(f"{name}: " + ("as it should be" if got == wanted else f"WRONG\n    got    {got}\n    wanted {wanted}"), flush=True)


def example(name):
    with open(os.path.join(EXAMPLES, name), "rb") as file:
        return file.read()


def started(words, **more):
    more.setdefault("stdin", subprocess.DEVNULL)
    more.setdefault("stdout", subprocess.PIPE)
    return subprocess.Popen(words, stderr=subprocess.PIPE, **more)


def ended(process, sent=None, seconds=WAIT):
    """What it printed, what it said, and its status."""
    try:
        out, err = process.communicate(sent, timeout=seconds)
    except subprocess.TimeoutExpired:
        process.kill()
        return None, None, "no end"
    return out, err, process.returncode


def run(words, sent=None, seconds=WAIT, **more):
    if sent is not None:
        more["stdin"] = subprocess.PIPE
    return ended(started(words, **more), sent, seconds)


def both(name, out, err, status, **more):
    """The program, whose status is 0, and the script."""
    judge(f"{name}, program", run([PROGRAM], **more), (out, err, 0))
    judge(f"{name}, script", run([SCRIPT], **more), (out, err, status))


def until(test):
    """Waits for something, so that no case hangs on how fast the machine is."""
    end = time.monotonic() + WAIT
    while not test() and time.monotonic() < end:
        time.sleep(0.05)


def on_terminal(words, typed, ready=lambda: True, **more):
    """Runs on a terminal of its own, types something once it is ready, and tells what it printed and said."""
    near, far = pty.openpty()

    def own():
        os.setsid()
        os.close(os.open(os.ttyname(0), os.O_RDWR))

    process = started(words, stdin=far, preexec_fn=own, **more)
    os.close(far)
    until(ready)
    for text in typed:
        time.sleep(0.3)
        os.write(near, text)
    got = ended(process)
    os.close(near)
    return got


def alive(folder, program=""):
    """The processes that work in a folder, or have a file of it open; of a program alone where one is named."""
    found = []
    for number in filter(str.isdigit, os.listdir("/proc")):
        try:
            own = os.readlink(f"/proc/{number}/exe")
            links = [os.readlink(f"/proc/{number}/cwd")] + [os.readlink(f"/proc/{number}/fd/{k}") for k in os.listdir(f"/proc/{number}/fd")]
        except OSError:
            continue
        if program in ("", own) and any(link.startswith(folder) for link in links):
            found.append(int(number))
    return found
