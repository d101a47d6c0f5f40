"""Cases of two processes at once, of faults while the program runs, and of signals."""
import fcntl
import os
import random
import resource
import signal
import subprocess
import threading
import time
from collections import Counter

from trials.lines import Clerk, Line
from trials.starts import (
    BEGUN,
    GATE,
    IN_USE,
    LINES,
    MORE,
    MORE_LINES,
    NO_MEMORY,
    PATIENCE,
    READ_FAULT,
    REPLIES,
    SCRIPT,
    WRITE_FAULT,
    Differs,
    Run,
    Start,
    begins_anew,
    begun,
    cannot_be_written,
    case,
    content,
    counted,
    expect,
    goes_on,
    judged,
    keeps,
    made,
    on_small_disk,
    openings,
    without_warning,
    words_of,
)


# ---- two at once


@case("a second process on it, by any of its names, is told that it is in use, and the first goes on")
def _(folder):
    os.link(begun(folder / "j"), folder / "other")
    (folder / "link").symlink_to("j")
    first = Start(folder / "j")
    clerk = Clerk(random.Random(1))
    clerk.start_again(1)
    first.ask(clerk.lines(20))
    for path in ("j", "other", "link"):
        Run(folder / path, MORE).ends(1, b"", IN_USE)
    first.ask(clerk.lines(20))
    first.ends()
    first.left(LINES, content(folder / "j"))
    Run(folder / "other").ends()


@case("once the first is killed, or has ended, it is free")
def _(folder):
    for _ in range(20):
        first = Start(folder / "j")
        first.ask([Line('["export","r1"]')])
        Run(folder / "j").ends(1, b"", IN_USE)
        first.process.kill()
        first.ends(-signal.SIGKILL)
        Run(folder / "j").ends()


@case("a lock that another program holds on it, shared or not")
def _(folder):
    for kind in (fcntl.LOCK_EX, fcntl.LOCK_SH):
        with open(begun(folder / f"j{kind}"), "rb") as held:
            fcntl.flock(held, kind)
            Run(folder / f"j{kind}", MORE).ends(1, b"", IN_USE)
        goes_on(folder / f"j{kind}")


@case("of eight that make it at once one has it")
def _(folder):
    for number in range(20):
        starts = [Start(folder / f"j{number}") for _ in range(8)]
        answered = [start for start in starts if start.ask([Line('["open","s","review"]', [1, ["open", "review"]])])]
        expect("who was answered", len(answered), 1)
        for start in starts:
            # One that comes second while the first makes it finds the name taken, and one that comes later the lock.
            wanted = [(0, b"")] if start in answered else [(1, IN_USE), (1, WRITE_FAULT)]
            ended = start.ended()
            expect("how it ends", ended in wanted and ended, ended)
        keeps(folder / f"j{number}", b'[1,["open","review"],["opened"]]\n')


# ---- faults while it runs


def until_it_ends(start, clerk, block):
    """Sends lines until the program has ended by itself."""
    for _ in range(100_000):
        if not start.ask(clerk.lines(block)):
            return
    raise Differs("it goes on and on")


def fills(journal, block, every_reply, make_room, **how):
    """A run that ends where the journal takes no more: nothing that was told is missing, and with more room it goes on."""
    clerk = Clerk(random.Random(block))
    start = Start(journal, every_reply, **how)
    until_it_ends(start, clerk, block)
    start.ends(1, WRITE_FAULT)
    lines, _ = start.left(b"", content(journal))
    judged(journal)
    make_room()
    clerk.start_again(openings(lines))
    after = Start(journal, every_reply)
    if not after.ask(clerk.lines(100)):
        raise Differs(f"it does not go on: {after.ended()}")
    after.ends()
    data = content(journal)
    after.left(lines, data)
    expect("what stands behind the lines", counted(data)[1], GATE)
    judged(journal)


for _block in (1, 7, 300):
    for _every in (False, True):

        @case(f"a disk that is full, {_block} lines at a time{', every reply kept' if _every else ''}")
        def _(folder, block=_block, every=_every):
            def look(disk):
                def make_room():
                    subprocess.run(["mount", "-o", "remount,size=1m", str(disk)], check=True)

                fills(disk / "j", block, every, make_room)

            on_small_disk(folder, look)


@case("a disk that is full, explained: the system's reason comes before the fault")
def _(folder):
    def look(disk):
        lines = b'["open","s","review"]\n["close","s"]\n' * 5_000
        done = subprocess.run([*words_of(disk / "j"), "--explain"], input=lines, capture_output=True, timeout=PATIENCE)
        reason = f"filing: {disk / 'j'}: No space left on device (os error 28)\n".encode()
        expect("what came", (done.returncode, without_warning(done.stderr)), (1, reason + WRITE_FAULT))

    on_small_disk(folder, look)


@case("a disk that is full before the journal is made, or opened")
def _(folder):
    def look(disk):
        begun(disk / "j")
        try:
            with open(disk / "filler", "wb", buffering=0) as filler:
                while filler.write(b"x" * 512):
                    pass
        except OSError:
            pass
        cannot_be_written(disk / "new")
        expect("the new file", (disk / "new").exists(), False)
        Run(disk / "j").ends()
        (disk / "filler").unlink()
        goes_on(disk / "j")
        begins_anew(disk / "new")

    on_small_disk(folder, look)


@case("a file that may not grow beyond some length")
def _(folder):
    (folder / "sub").mkdir()

    def limit():
        resource.setrlimit(resource.RLIMIT_FSIZE, (30_001, resource.getrlimit(resource.RLIMIT_FSIZE)[1]))

    # Signals that Python ignores stay so: the system tells the fault by the write alone.
    how = {"preexec_fn": limit, "restore_signals": False}
    for block in (1, 40):
        fills(folder / "sub" / f"j{block}", block, block == 40, lambda: None, **how)


@case("standard output that takes nothing: a write fault, and the journal goes on")
def _(folder):
    with open("/dev/full", "wb") as full:
        Run(folder / "j", SCRIPT, stdout=full).ends(1, None, WRITE_FAULT)
    lines, behind = counted(content(folder / "j"))
    expect("a first part", (LINES.startswith(lines), behind), (True, GATE))
    Run(folder / "j").ends()


@case("a reader of the replies who goes away: a write fault, and the journal goes on")
def _(folder):
    lines, clerk = b"", Clerk(random.Random(3))
    for number in range(40):
        clerk.start_again(openings(lines))
        start = Start(folder / "j", every_reply=number % 2 == 1)
        start.ask(clerk.lines(number))
        start.process.stdout.close()
        start.sent += (further := clerk.lines(60))
        try:
            start.process.stdin.write(b"".join(line.text for line in further))
            start.process.stdin.close()
        except BrokenPipeError:
            pass
        told = without_warning(start.process.stderr.read())
        expect("status and standard error", (start.process.wait(PATIENCE), told), (1, WRITE_FAULT))
        lines, _ = start.left(lines, content(folder / "j"))
        judged(folder / "j")


for _signal in (signal.SIGTERM, signal.SIGINT, signal.SIGHUP):

    @case(f"{_signal.name} in the middle: nothing that was told is missing, and it goes on")
    def _(folder, sent=_signal):
        lines, clerk, draw = b"", Clerk(random.Random(4)), random.Random(4)
        # Who starts this may ignore the signal, which the program would do then too.
        how = {"preexec_fn": lambda: signal.signal(sent, signal.SIG_DFL)}
        for number in range(30):
            clerk.start_again(openings(lines))
            start = Start(folder / "j", number % 2 == 1, **how)
            start.ask(clerk.lines(5))
            timer = threading.Timer(draw.uniform(0, 0.02), start.process.send_signal, [sent])
            timer.start()
            until_it_ends(start, clerk, 6)
            start.ends(-sent)
            lines, _ = start.left(lines, content(folder / "j"))
            judged(folder / "j")


@case("a script that cannot be read: a read fault, and the journal goes on")
def _(folder):
    (folder / "sub").mkdir()
    begun(folder / "j")
    given = os.open(folder / "sub", os.O_RDONLY)
    done = subprocess.run(words_of(folder / "j"), stdin=given, capture_output=True, timeout=PATIENCE)
    os.close(given)
    expect("what came", (done.returncode, done.stdout, done.stderr), (1, b"", READ_FAULT))
    keeps(folder / "j", LINES)
    goes_on(folder / "j")


@case("the journal as the script: its lines are bad ones, and it stays")
def _(folder):
    lines = content(begun(folder / "j")).count(b"\n") - 1
    with open(folder / "j", "rb") as given:
        done = subprocess.run(words_of(folder / "j"), stdin=given, capture_output=True, timeout=PATIENCE)
    expect("what came", (done.returncode, done.stdout, done.stderr), (0, b'["bad-line"]\n' * lines, b""))
    keeps(folder / "j", LINES)


@case("standard streams that are closed: nothing that is meant for them lands in the journal")
def _(folder):
    for closed in ((0,), (1,), (2,), (0, 1), (0, 1, 2)):
        journal = begun(folder / f"j{len(list(folder.iterdir()))}")

        def close(closed=closed):
            for stream in closed:
                os.close(stream)

        subprocess.run(words_of(journal), input=MORE, capture_output=True, timeout=PATIENCE, preexec_fn=close)
        lines, behind = counted(content(journal))
        expect("what stands behind the lines", behind, GATE)
        expect("a first part", (lines.startswith(LINES), (LINES + MORE_LINES).startswith(lines)), (True, True))


@case("a line for which there is no memory: status 3, and what was told is in the journal")
def _(folder):
    limit = 100 << 20

    def bound():
        resource.setrlimit(resource.RLIMIT_AS, (limit, limit))

    script = SCRIPT + b'["open","t","amend"]\n["load","r2","' + b"x" * limit + b'"]\n'
    done = subprocess.run(words_of(folder / "j"), input=script, capture_output=True, timeout=PATIENCE, preexec_fn=bound)
    told = f'filing: a new journal "{folder / "j"}"\n'.encode()
    expect("what came", (done.returncode, done.stderr), (3, told + NO_MEMORY))
    expect("replies", done.stdout, REPLIES + b'["opened"]\n')
    lines, behind = counted(content(folder / "j"))
    expect("the journal", (lines[: len(LINES)], behind), (LINES, GATE))
    judged(folder / "j")
    made(folder / "large", BEGUN + GATE + bytes(limit))
    Run(folder / "large", preexec_fn=bound).ends(3, b"", NO_MEMORY)
    expect("the length", (folder / "large").stat().st_size, len(BEGUN) + 1 + limit)
    goes_on(folder / "large")


# ---- kills that are aimed


@case("SIGKILL inside the first start of all, 200 times")
def _(folder):
    draw, seen = random.Random(5), Counter()
    for number in range(200):
        journal = folder / f"j{number}"
        start = Start(journal, every_reply=number % 2 == 1)
        lines = Clerk(draw).lines(3)
        start.send(lines)
        time.sleep(draw.uniform(0, 0.006))
        start.process.kill()
        start.ends(-signal.SIGKILL)
        data = content(journal)
        found, kept = start.left(b"", data)
        seen["no file" if not journal.exists() else "entries" if found else "no entry"] += 1
        after = Start(journal)
        after.ask([Line('["open","t","review"]', [openings(found) + 1, ["open", "review"]])])
        after.ends()
        after.left(found, content(journal))
        judged(journal)
        journal.unlink()
    return ", ".join(f"{count} {what}" for what, count in seen.items())
