"""Journals that are killed again and again."""
import random
import signal
import subprocess
import tempfile
import threading
import time
from collections import Counter
from concurrent.futures import ThreadPoolExecutor
from pathlib import Path

from model import journals
from trials.lines import Clerk
from trials.starts import (
    GATE,
    PATIENCE,
    TRIED,
    Differs,
    Start,
    content,
    counted,
    expect,
    journal_of,
    judged,
    openings,
)

# So many kills are of one journal, and so many journals go on at once.
KILLS_OF_ONE = 100
JOBS = 2


def without_marks(rubbish):
    """Bytes with no line that begins as a mark does: where two do, what stands behind the gate is no put's."""
    return rubbish.replace(b"\n{", b"\n(")


class Life:
    """A journal over many starts, all of which but the last are killed."""

    def __init__(self, folder, seed, number, every_reply):
        self.draw = random.Random(f"{seed} {number}")
        self.folder, self.journal, self.every_reply = folder, folder / "journal", every_reply
        self.clerk, self.lines, self.behind, self.kept, self.opening = Clerk(self.draw), b"", b"", [], 0.004
        self.counts, self.start = Counter(), None

    def kill(self):
        """A start that is killed at some moment, and what it left."""
        kind = self.draw.choice(["opening", "later", "reading"])
        self.start = Start(self.journal, self.every_reply)
        wait = {
            "opening": self.draw.uniform(0, 1.3 * self.opening),
            "later": self.opening + self.draw.uniform(0, 0.04),
            "reading": PATIENCE,
        }[kind]
        timer = threading.Timer(wait, self.start.process.kill)
        timer.start()
        self.talk(self.draw.randrange(1, 80) if kind == "reading" else None)
        timer.cancel()
        if time.monotonic() - self.start.began > PATIENCE:
            raise Differs("it did not answer")
        expect("status and standard error", self.start.ended(), (-signal.SIGKILL, b""))
        if self.start.first_reply_after is None:
            self.counts["kills before a reply"] += 1
        else:
            self.opening = self.start.first_reply_after
        self.counts["kills"] += 1
        self.compare()

    def talk(self, most):
        """Sends lines and reads replies until the program is killed: here, once so many were read, or elsewhere."""
        block = self.draw.choice([1, 1, 1, 4, 16, 16, 120, 1_500])
        while True:
            self.start.send(self.clerk.lines(1 if block == 1 else self.draw.randrange(1, block)))
            while self.start.unanswered:
                if not self.start.read(4096 if most is None else 64):
                    return
                if most is not None and self.start.told >= most:
                    return self.start.process.kill()

    def compare(self):
        data = content(self.journal)
        lines, kept = self.start.left(self.lines, data)
        if len(lines) > len(self.lines):
            judged(self.journal)
        self.lines, self.kept = lines, self.kept + kept
        self.clerk.start_again(openings(lines))
        _, behind = counted(data)
        # What was there when the program was started, and is there still, counts once.
        if (kept, behind) != ([], self.behind):
            self.counts["torn batches"] += len(behind) > 1
            self.counts["without a gate"] += data != b"" and not behind
        self.behind = behind
        self.counts["entries found"] += len(kept)
        self.counts["replies told"] += self.start.told
        for line in self.start.sent:
            if line.told is not None:
                self.counts[line.told[2:].split(b'"')[0].decode()] += 1
        if data and self.draw.random() < 0.15:
            self.spoil(journals.recovered(data))

    def spoil(self, lines):
        """Puts behind the lines what a power cut could leave there: behind the gate a zero or what goes on an entry."""
        rubbish = without_marks(self.draw.randbytes(self.draw.choice([0, 1, 40, 5_000])))
        entries = b"".join(self.draw.choices(self.lines.splitlines(True) or [b"[1]\n"], k=3))
        batch = journal_of(entries)[len(journal_of()) :]
        tails = [GATE, GATE + b"\0" + rubbish, GATE + batch[1:] + GATE, GATE + batch[1:2] + rubbish]
        self.behind = self.draw.choice([*tails, GATE + batch[1:-9], GATE + bytes(4096), b"", b"\0"])
        self.journal.write_bytes(lines + self.behind)
        self.counts["tails spoiled"] += 1

    def end(self):
        """A last start that ends by itself, and the whole journal beside a history of the same lines."""
        self.start = Start(self.journal, self.every_reply)
        self.start.ask(self.clerk.lines(60))
        self.start.ends()
        self.compare_whole()

    def compare_whole(self):
        data = content(self.journal)
        lines, kept = self.start.left(self.lines, data)
        expect("what stands behind the lines", counted(data)[1], GATE)
        expect("entries of the last start", len(kept), sum(line.start is not None for line in self.start.sent))
        self.counts["entries found"] += len(kept)
        self.counts["replies told"] += self.start.told
        script = b"".join(line.text for line in self.kept + kept)
        words = [TRIED.program, "run", "--numeric", TRIED.table, "--history", str(self.folder / "history")]
        subprocess.run(words, input=script, stdout=subprocess.DEVNULL, timeout=PATIENCE, check=True)
        if content(self.folder / "history") != lines:
            raise Differs("the history of its lines is another")
        judged(self.journal)

    def keep(self):
        """A folder with what there is of a journal that is otherwise."""
        folder = Path(tempfile.mkdtemp(prefix="journal_trials."))
        (folder / "before").write_bytes(self.lines)
        (folder / "journal").write_bytes(content(self.journal))
        (folder / "sent").write_bytes(b"".join(line.text for line in self.start.sent))
        (folder / "told").write_bytes(
            b"".join(line.told + b"\n" for line in self.start.sent if line.told) + self.start.rest
        )
        return folder


def lived(seed, number, kills, every_reply):
    """What became of a journal that was killed so often."""
    with tempfile.TemporaryDirectory() as room:
        life = Life(Path(room), seed, number, every_reply)
        try:
            for _ in range(kills):
                life.kill()
            life.end()
        except Differs as differs:
            return life.counts, f"FAILED after {life.counts['kills']} kills: {differs}; kept in {life.keep()}"
    return life.counts, "ok"


def parts_of(kills):
    """The kills of each journal."""
    return [min(KILLS_OF_ONE, kills - begun) for begun in range(0, kills, KILLS_OF_ONE)]


def kill_all(kills, seed):
    """Tells each journal, and what all came to. Gives how many were otherwise."""
    lives = [
        (count, every)
        for every, share in ((False, kills - kills // 2), (True, kills // 2))
        for count in parts_of(share)
    ]
    failed, totals = 0, {False: Counter(), True: Counter()}
    with ThreadPoolExecutor(JOBS) as pool:
        came = pool.map(lambda it: lived(seed, it[0], *it[1]), enumerate(lives, 1))
        for number, ((count, every), (counts, told)) in enumerate(zip(lives, came), 1):
            failed += told != "ok"
            totals[every].update(counts)
            print(f"journal {number}, {count} kills{', every reply' if every else ''}: {told}", flush=True)
    for every, counts in totals.items():
        if counts:
            tell_counts("every reply kept" if every else "loads and commits kept", counts)
    return failed


FIRST_COUNTS = [
    "kills",
    "kills before a reply",
    "replies told",
    "entries found",
    "torn batches",
    "without a gate",
    "tails spoiled",
]


def tell_counts(title, counts):
    print(f"{title}: " + ", ".join(f"{counts[name]} {name}" for name in FIRST_COUNTS))
    words = sorted((word for word in counts if word not in FIRST_COUNTS), key=lambda word: -counts[word])
    print("  of the replies " + ", ".join(f"{counts[word]} {word}" for word in words))
