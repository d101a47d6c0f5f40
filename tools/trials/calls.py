"""Cases by the calls of the system that the program makes, as `strace` notes them: kills and faults at each, and power
cuts."""
import os
import random
import re
import shutil
import signal
import subprocess
from collections import Counter

from trials.lines import Clerk
from trials.lives import without_marks
from trials.starts import (
    BEGUN,
    GATE,
    LINES,
    WRITE_FAULT,
    Differs,
    PassedOver,
    Run,
    Start,
    begun,
    case,
    content,
    counted,
    expect,
    is_due,
    judged,
    keeps,
    made,
    shortened,
)

CALLS = ["pwrite64", "ftruncate", "fdatasync", "fsync", "write"]
MAKING = [*CALLS, "link", "linkat", "unlink", "unlinkat"]


def strace(log, *words, calls=CALLS):
    """The words that run a program by strace, which notes these calls."""
    tried = shutil.which("strace") and subprocess.run(["strace", "-o", os.devnull, "true"], stderr=subprocess.DEVNULL)
    if not tried or tried.returncode:
        raise PassedOver("there is no strace")
    return ["strace", "-qq", "-o", str(log), "-e", "trace=" + ",".join(calls), *words]


def hit(folder, call, number, what, every_reply=False):
    """A run on a torn journal, in which something happens at a call, and how it ended; none where there are fewer calls."""
    journal = made(folder / "j", BEGUN + GATE + b"torn")
    clerk = Clerk(random.Random(6))
    clerk.start_again(1)
    start = Start(journal, every_reply, strace(folder / "log", "-e", f"inject={call}:{what}:when={number}"))
    for count in (1, 1, 1, 2, 3, 5, 8, 13):
        if not start.ask(clerk.lines(count)):
            break
    ended = start.ended()
    lines, _ = start.left(LINES, content(journal))
    judged(journal)
    after = Run(journal)
    after.ends()
    keeps(journal, lines)
    return None if ended == (0, b"") else ended


def at_each_call(folder, calls, what, wanted):
    """Something happens at each of these calls in turn, and each of the runs ends as is wanted. How many there were."""
    hits = Counter()
    for call in calls:
        for every_reply in (False, True):
            number = 1
            while ended := hit(folder, call, number, what, every_reply):
                expect(f"{call} {number}", ended, wanted)
                yield
                hits[call] += 1
                number += 1
    yield ", ".join(f"{count} {call}" for call, count in hits.items())


@case("SIGKILL at each call on the file, and at each write of replies")
def _(folder):
    *_, told = at_each_call(folder, CALLS, "signal=SIGKILL", (-signal.SIGKILL, b""))
    return told


@case("SIGKILL at each call by which a new journal is made: nothing has its name, or a journal without an entry")
def _(folder):
    hits = Counter()
    for call in MAKING:
        ended = None
        while ended != (0, b""):
            journal = folder / f"{call}-{hits[call]}"
            inject = f"inject={call}:signal=SIGKILL:when={hits[call] + 1}"
            ended = Start(journal, prefix=strace(folder / "log", "-e", inject, calls=MAKING)).ended()
            expect("the entries", counted(content(journal))[0], b"")
            begun(journal)
            hits[call] += ended == (-signal.SIGKILL, b"")
    return ", ".join(f"{count} {call}" for call, count in hits.items() if count)


@case("a fault at each call on the file: a write fault, and no call on it comes after")
def _(folder):
    for told in at_each_call(folder, CALLS[:4], "error=EIO", (1, WRITE_FAULT)):
        if told is None:
            _, _, after = (folder / "log").read_text().partition("(INJECTED)\n")
            expect("calls after it", [line for line in after.splitlines() if not line.startswith("write(2, ")], [])
    return told


class Disk:
    """What a disk may have of a file, by the calls on it."""

    def __init__(self, data, draw):
        self.synced, self.seen, self.waiting, self.draw = data, data, [], draw

    def write(self, at, data):
        """A write. One of the bytes that stand there already, as of the last batch after opening, leaves them, torn or not."""
        if self.seen[at : at + len(data)] != data:
            self.waiting.append((at, data))
            self.seen = put(self.seen, at, data)

    def cut(self, length):
        self.waiting.append((length, None))
        self.seen = self.seen[:length]

    def sync(self):
        self.synced, self.waiting = self.seen, []

    def after_power_cut(self):
        """What may be there: of each write that waits all, nothing, a part or anything, of a cut any of it, and of one byte
        all, nothing or a zero past the end."""
        left = self.synced
        for at, data in self.waiting:
            if data is None:
                left = left[: self.draw.randint(at, max(at, len(left)))]
            elif len(data) == 1:
                left = put(left, at, self.draw.choice([data, left[at : at + 1] or self.draw.choice([b"", b"\0"])]))
            else:
                left = put(left, at, self.torn(data))
        return left

    def torn(self, data):
        kept = self.draw.randrange(len(data) + 1)
        rubbish = self.draw.choice([self.draw.randbytes(len(data)), bytes(len(data)), (LINES * len(data))[: len(data)]])
        mixed = [rubbish, rubbish[:kept] + data[kept:], data[:kept] + rubbish[kept:]]
        return self.draw.choice([data, b"", data[:kept], *map(without_marks, mixed)])


def put(data, at, new):
    return data[:at].ljust(at, b"\0") + new + data[at + len(new) :]


CALL = re.compile(r'(\w+)\((\d+)(?:, "((?:\\x[0-9a-f]{2})*)", \d+)?(?:, (\d+))?\) += (\d+)')


def calls_in(log):
    """The calls that were noted: name, file, bytes, place and answer."""
    for line in log.read_text().splitlines():
        if line.startswith("+++"):
            continue
        found = CALL.fullmatch(line)
        if not found:
            raise Differs(f"a call: {shortened(line)}")
        name, file, data, place, answer = found.groups()
        yield name, int(file), bytes.fromhex((data or "").replace("\\x", ""))[: int(answer)], int(place or 0)


def power_cuts(folder, number, every_reply):
    """A run whose calls are noted. What a power cut leaves, at each moment, has to have what was told up to there."""
    before = made(folder / "j", BEGUN + GATE + b"torn").read_bytes()
    clerk = Clerk(random.Random(f"power {number}"))
    clerk.start_again(1)
    start = Start(folder / "j", every_reply, strace(folder / "log", "-xx", "-s", "10000000"))
    for count in (1, 1, 2, 5, 20, 50):
        start.ask(clerk.lines(count))
    start.ends()
    lines, _ = start.left(LINES, content(folder / "j"))
    disk, written, cuts, journal = Disk(before, random.Random(number)), 0, 0, None
    for name, file, data, place in calls_in(folder / "log"):
        # The first sync is that of the journal; the bytes that are cut off go to another file.
        journal = file if journal is None and name == "fsync" else journal
        if name == "write":
            written += len(data) if file == 1 else 0
        elif file != journal:
            continue
        elif name == "pwrite64":
            disk.write(place, data)
        elif name == "ftruncate":
            disk.cut(place)
        else:
            disk.sync()
        for _ in range(10):
            left, _ = counted(disk.after_power_cut())
            found, due = left.count(b"\n"), LINES.count(b"\n") + due_after(start, written)
            if not lines.startswith(left):
                raise Differs(
                    f"after {written} bytes of replies a power cut leaves {found} entries, not all of them its own"
                )
            if found < due:
                raise Differs(
                    f"after {written} bytes of replies a power cut leaves {found} entries, and {due} were told"
                )
            cuts += 1
    expect("the file by its calls", disk.seen, content(folder / "j"))
    expect("the replies by the calls", written, sum(len(line.told) + 1 for line in start.sent if line.told is not None))
    return cuts


def due_after(start, written):
    """How many entries have to be in the journal after so many bytes of replies."""
    due, count = 0, 0
    for line in (line for line in start.sent if line.told is not None and written > 0):
        count += line.start is not None
        if is_due(line.told, start.every_reply):
            due = count
        written -= len(line.told) + 1
        if written <= 0:
            break
    return due


@case("power cuts at each moment of runs, by the calls that they make")
def _(folder):
    cuts = sum(power_cuts(folder, number, number % 2 == 1) for number in range(20))
    return f"{cuts} power cuts"
