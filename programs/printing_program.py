"""The proved printing program, target/bin/judge: built where it is missing or older than its sources, and run."""
import ctypes
import fcntl
import functools
import os
import pathlib
import re
import resource
import shutil
import signal
import subprocess
import sys
import time

from command import NotDone

ROOT = pathlib.Path(__file__).resolve().parent.parent
PROGRAM = ROOT / "target" / "bin" / "judge"
LOG = ROOT / "target" / "judge-build.log"
# Has rt prove and link the program, and run it, once, on nothing; then puts it in its place, as a whole. Its time is that at which the
# build began: a source that was changed meanwhile is newer.
BUILD = """
cd crates/judge && rt run -- 0 < /dev/null || exit
mkdir -p ../../target/bin && cp out/judge ../../target/bin/judge.new && touch -d "@$1" ../../target/bin/judge.new &&
mv ../../target/bin/judge.new ../../target/bin/judge
"""
# The table of known machines, 4 MiB, stands on the stack.
STACK = 8 << 20
# Of the C library's prctl: the signal that a process gets when the one that started it ends.
PR_SET_PDEATHSIG = 1


def say(text, end="\n"):
    print(f"judge: {text}", end=end, file=sys.stderr, flush=True)


def rooms():
    """The crates that the program is made of, by crates.txt."""
    uses = {}
    for line in (ROOT / "crates.txt").read_text().splitlines():
        if found := re.match(r"(\w+)(?: [\w= +]+)?:(.*)", line):
            uses[found[1]] = found[2].split()
    needed, new = set(), {"judge"}
    while new:
        needed |= new
        new = {used for name in new for used in uses[name] if used in uses} - needed
    return needed


def is_current():
    """Whether no source has changed since the program was built."""
    if not PROGRAM.exists():
        return False
    built = PROGRAM.stat().st_mtime
    folders = [ROOT / "crates" / room / part for room in rooms() for part in ("src", "specs", "proofs")]
    # A folder is newer than a file that was taken out of it.
    sources = [path for folder in folders if folder.exists() for path in (folder, *folder.rglob("*"))]
    return all(path.stat().st_mtime <= built for path in [ROOT / "crates.txt", *sources])


def build(lock):
    """Has rt prove and link the program, and says how far it is. If the command is ended before rt is, rt goes on and
    keeps the lock."""
    if not shutil.which("rt"):
        raise NotDone("rt, the command of the Rattle kit, is not in PATH: it is needed to prove and build the judge")
    say(f"proving and building the judge from its sources, some minutes the first time; the log is {LOG}")
    words = ["sh", "-c", BUILD, "sh", str(time.time())]
    with LOG.open("w") as log:
        rt = subprocess.Popen(words, cwd=ROOT, stdout=log, stderr=log, pass_fds=[lock.fileno()])
    total, shown, status = len(rooms()), 0, None
    while status is None:
        time.sleep(0.2)
        status = rt.poll()
        # rt is silent of a crate that it has proved before.
        proved = total if status == 0 else len(re.findall(r"^logic=proved ", LOG.read_text(errors="replace"), re.MULTILINE))
        shown = show_progress(shown, min(proved, total), total)
    if status:
        raise NotDone(f"the judge could not be proved and built: rt ended with {status}; read {LOG}")


def show_progress(shown, proved, total):
    """On a terminal one line that changes; elsewhere a line now and then. Gives the number that was shown last."""
    if proved == shown:
        return shown
    if sys.stderr.isatty():
        say(f"{proved} of {total} crates proved", end="\n" if proved == total else "\r")
    elif proved < shown + 10 and proved < total:
        return shown
    else:
        say(f"{proved} of {total} crates proved")
    return proved


def make_current():
    """Builds the program if it is missing or old; one build at a time, the others wait for it."""
    if is_current():
        return
    LOG.parent.mkdir(exist_ok=True)
    with (LOG.parent / "judge-build.lock").open("w") as lock:
        try:
            fcntl.flock(lock, fcntl.LOCK_EX | fcntl.LOCK_NB)
        except BlockingIOError:
            say("the judge is being built already, waiting for that")
            fcntl.flock(lock, fcntl.LOCK_EX)
        if not is_current():
            build(lock)


def command():
    """How it is started: it is for x86-64; on other processors an emulator runs it."""
    machine = os.uname().machine
    if machine == "x86_64":
        return [PROGRAM]
    emulator = shutil.which("qemu-x86_64")
    if not emulator:
        raise NotDone(f"the judge is for x86-64, and on {machine} the emulator qemu-x86_64 is not in PATH: "
                      "./on-x86-64 --packages prints the Debian package that has it")
    return [emulator, PROGRAM]


def before_start(command):
    """In the new process: room on the stack, and an end together with the command, however that ends."""
    soft, hard = resource.getrlimit(resource.RLIMIT_STACK)
    if soft != resource.RLIM_INFINITY and soft < STACK:
        resource.setrlimit(resource.RLIMIT_STACK, (STACK, hard))
    ctypes.CDLL(None).prctl(PR_SET_PDEATHSIG, signal.SIGKILL)
    if os.getppid() != command:
        os._exit(1)


def run(program, budget):
    """What it prints for a program file, of which it reads 4,096 bytes at most."""
    _, hard = resource.getrlimit(resource.RLIMIT_STACK)
    if hard != resource.RLIM_INFINITY and hard < STACK:
        raise NotDone(f"the stack is limited to {hard >> 10} KiB and {STACK >> 10} are needed: raise the limit "
                      "(ulimit -s)")
    make_current()
    ended = subprocess.run([*command(), budget], input=program[:4096], stdout=subprocess.PIPE,
                           preexec_fn=functools.partial(before_start, os.getpid()))
    if ended.returncode:
        raise NotDone(f"the judge ended with {ended.returncode} and without an answer")
    return ended.stdout.decode()
