"""A first use of the script `readrun`, which proves and builds the program: interrupted, refused, and whole."""
import os
import shutil
import signal
import tempfile

from trial import EXAMPLES, PROGRAM, ROOT, SCRIPT, alive, ended, example, judge, on_terminal, run, started, until

# Stands for rt, in the program's folder: does what the file `plan` says, and notes each call once all that it starts is there.
STUB = """#!/bin/sh
mkdir -p out
plan=$(cat "$STUB/plan")
if [ "$plan" = wait ]; then
    (sleep 100; sleep 100) &
    for program in out/readrun ../../target/bin/readrun; do
        printf '#!/bin/sh\\necho half built\\n' >$program
        chmod +x $program
    done
fi
[ "$plan" != prove ] || { rm -f out/readrun && cp "$PROVED" out/readrun; }
echo call >>"$STUB/calls"
case $plan in
wait) sleep 100 ;;
fail) printf 'rt: chose --jobs 2 for readrun\\nfn readrun::main: not proved\\n' >&2; exit 1 ;;
esac
"""


class Copy:
    """A repository that has the script and nothing to prove, and the stub."""

    def __init__(self, folder):
        self.root, self.stub = os.path.join(folder, "copy"), os.path.join(folder, "stub")
        os.makedirs(os.path.join(self.root, "crates/readrun/src"))
        os.makedirs(os.path.join(self.root, "tests"))
        os.makedirs(self.stub)
        shutil.copy(SCRIPT, self.root)
        shutil.copy(os.path.join(ROOT, "tests/program.sh"), os.path.join(self.root, "tests"))
        self.source("a.rt")
        shutil.copy(os.path.join(ROOT, "crates.txt"), self.root)
        self.write("rt", STUB)
        self.write("calls", "")
        os.chmod(os.path.join(self.stub, "rt"), 0o755)
        self.words = [os.path.join(self.root, "readrun"), os.path.join(EXAMPLES, "worked.run")]
        self.env = dict(os.environ, PATH=f"{self.stub}:{os.environ['PATH']}", STUB=self.stub, PROVED=PROGRAM)

    def source(self, name):
        with open(os.path.join(self.root, "crates/readrun/src", name), "w", encoding="utf-8") as file:
            file.write("// nothing\n")

    def write(self, name, text):
        with open(os.path.join(self.stub, name), "w", encoding="utf-8") as file:
            file.write(text)

    def calls(self):
        with open(os.path.join(self.stub, "calls"), encoding="utf-8") as file:
            return len(file.readlines())

    def left(self):
        """What still runs, and whether the program counts as checked."""
        return alive(self.root), [name for name in os.listdir(os.path.join(self.root, "target")) if "checked" in name]


def interrupted(copy):
    copy.write("plan", "wait")
    for calls, number in enumerate((signal.SIGTERM, signal.SIGINT, signal.SIGHUP), 1):
        process = started(copy.words, env=copy.env)
        until(lambda: copy.calls() == calls)
        process.send_signal(number)
        got = ended(process)
        judge(f"a first use that {number.name} ends", (got[0], got[2], copy.left()), (b"", -number, ([], [])))
    got = on_terminal(copy.words, [b"\3"], ready=lambda: copy.calls() == 4, env=copy.env)
    judge("a first use that the terminal interrupts", (got[0], got[2], copy.left()), (b"", -signal.SIGINT, ([], [])))


def first_use():
    reading = example("worked.reading")
    with tempfile.TemporaryDirectory() as folder:
        copy = Copy(folder)
        interrupted(copy)
        copy.write("plan", "fail")
        got = run(copy.words, env=copy.env)
        wanted = b"readrun: proving readrun (1 of 1)\n", b"fn readrun::main: not proved\n"
        judge("a first use that proves nothing", (got[0], [words in got[1] for words in wanted], got[2], alive(copy.root)), (b"", [True, True], 2, []))
        copy.write("plan", "prove")
        got = run(copy.words, env=copy.env)
        judge("a use after these", (got[0], got[2], copy.left()), (reading, 0, ([], ["readrun.checked"])))
        judge("a second use", run(copy.words, env=copy.env), (reading, b"", 0))
        judge("proved at each use but the second", copy.calls(), 6)
        copy.source("b.rt")
        judge("a use with a new source", run(copy.words, env=copy.env)[::2], (reading, 0))
        os.remove(os.path.join(copy.root, "crates/readrun/src/b.rt"))
        judge("a use with a source less", run(copy.words, env=copy.env)[::2], (reading, 0))
        judge("a use after that", run(copy.words, env=copy.env), (reading, b"", 0))
        judge("proved anew at both", copy.calls(), 8)
        for number in alive(copy.root):
            os.kill(number, signal.SIGKILL)
