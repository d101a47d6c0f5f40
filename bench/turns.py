"""How the kinds of works are measured: the program and its peer by turns, so that what else the machine does meets both.

What the two reply is compared byte for byte. Scripts in threads may commit in any order, so there the numbers of
versions are left out, and which of several scripts has loaded a report that all of them load.
"""
import contextlib
import filecmp
import itertools
import re
import statistics
import subprocess
import tempfile
import time
from pathlib import Path
from typing import Callable, Iterable, Iterator, NamedTuple, Optional

import works
from measuring.taken import Otherwise, Taken, instructions, taken

NUMBERED = re.compile(rb'^\["(?:(?:loaded|committed)",\d+|name-taken")\]', re.M)


class Pair(NamedTuple):
    """What the program took, and what its peer did, which has no share in some works."""

    mine: float
    its: Optional[float] = None

    def ratio(self) -> str:
        return f"{self.mine / self.its:.2f}" if self.its else ""


class Row(NamedTuple):
    says: str
    time: Pair
    unit: str
    memory: Optional[Pair] = None
    counted: Optional[Pair] = None
    of_one: Optional[float] = None


class Setting(NamedTuple):
    """The two programs, how often each runs, and a folder."""

    program: str
    peer: str
    turns: int
    counts: bool
    room: Path

    def commands(self, alone: bool = False) -> list[str]:
        return [self.program] if alone else [self.program, self.peer]

    def table(self) -> list[str]:
        path = self.room / "table.txt"
        path.write_text("".join(f"http://e.org/t Item{number}\n" for number in range(0, works.CONCEPTS, 2)))
        return ["--numeric", str(path)]

    def written(self, name: str, lines: Iterable[str]) -> Path:
        path = self.room / name
        with open(path, "w") as out:
            out.writelines(f"{line}\n" for line in lines)
        return path


def medians(runs: list[list[Taken]]) -> list[Taken]:
    return [Taken._make(map(statistics.median, zip(*its))) for its in runs]


def same(one: Path, other: Path, says: str) -> None:
    if not filecmp.cmp(one, other, shallow=False):
        raise Otherwise(f"{says}: the replies differ")


class OneScript(NamedTuple):
    """A script by `run`, or its history by `check`. Its time is processor time."""

    says: str
    script: Callable[[], Iterable[str]]
    words: tuple[str, ...] = ("run",)
    counted: bool = True
    alone: bool = False

    def rows(self, setting: Setting) -> Iterator[Row]:
        given = setting.written("script", self.script())
        command = [*self.words, *setting.table()]
        if self.words[0] == "check":
            history = setting.room / "history"
            taken([setting.peer, "run", *command[1:], "--history", str(history)], given, setting.room / "replies")
            command.append(str(history))
        programs = setting.commands(self.alone)
        told = [setting.room / f"replies-{at}" for at in range(len(programs))]
        runs: list[list[Taken]] = [[] for _ in programs]
        for _ in range(setting.turns + 1):
            for program, replies, its in zip(programs, told, runs):
                its.append(taken(self.words_of(program, command, setting), given, replies))
            same(told[0], told[-1], self.says)
        _, processor, memory = (Pair(*its) for its in zip(*medians([its[1:] for its in runs])))
        yield Row(self.says, processor, "s", memory, self.counts_of(setting, programs, command, given))

    def words_of(self, program: str, command: list[str], setting: Setting) -> list[str]:
        """The command, where a word of the kind {NAME} is the path of a new file."""
        fresh = {word: setting.room / word[1:-1] for word in command if word.startswith("{")}
        for path in fresh.values():
            path.unlink(missing_ok=True)
        return [program, *(str(fresh.get(word, word)) for word in command)]

    def counts_of(self, setting: Setting, programs: list[str], command: list[str], given: Path) -> Optional[Pair]:
        if self.alone or not (setting.counts and self.counted):
            return None
        return Pair(
            *(
                instructions(self.words_of(program, command, setting), given, setting.room / "replies")
                for program in programs
            )
        )


class Opening(NamedTuple):
    """A history judged by `check`, the journal of its entries verified and opened, with ratios to the judging."""

    says: str
    script: Callable[[], Iterable[str]]

    def rows(self, setting: Setting) -> Iterator[Row]:
        nothing, replies = setting.written("nothing", ()), setting.room / "replies"
        history, journal = str(setting.room / "history"), str(setting.room / "journal")
        run = [setting.program, "run", *setting.table()]
        taken([*run, "--history", history], setting.written("script", self.script()), replies)
        taken([*run, "--journal", journal, "--from", history], nothing, replies)
        commands = {
            "judged by `check`": [setting.program, "check", *setting.table(), history],
            "its journal by `verify`": [setting.program, "verify", journal],
            "its journal opened": [setting.program, "run", "--journal", journal],
        }
        runs: dict[str, list[Taken]] = {says: [] for says in commands}
        for _ in range(setting.turns + 1):
            for says, command in commands.items():
                runs[says].append(taken(command, nothing, replies))
        found = dict(zip(commands, medians([its[1:] for its in runs.values()])))
        counted = {it: instructions(commands[it], nothing, replies) for it in commands} if setting.counts else {}
        first = next(iter(commands))
        for says in commands:
            (_, mine, memory), (_, its, held) = found[says], found[first]
            pair = Pair(counted[says], counted[first]) if counted else None
            yield Row(f"{self.says}, {says}", Pair(mine, its), "s", Pair(memory, held), pair)


class Waiting:
    """A program that holds a report and waits for lines."""

    def __init__(self, command: list[str]) -> None:
        self.out = tempfile.TemporaryFile()
        self.process = subprocess.Popen(command, stdin=subprocess.PIPE, stdout=self.out)

    def microseconds(self) -> float:
        """What its threads took of the processors so far."""
        tasks = Path(f"/proc/{self.process.pid}/task").iterdir()
        return sum(int((task / "schedstat").read_text().split()[0]) for task in tasks) / 1000

    def waits(self) -> bool:
        """Whether it sleeps or has ended."""
        return Path(f"/proc/{self.process.pid}/stat").read_text().rsplit(")", 1)[1].split()[0] in "SZ"

    def given(self, script: str, pause: float) -> float:
        """The microseconds that it takes for these lines. It is done once it has waited for three pauses, or has ended."""
        assert self.process.stdin
        before = self.microseconds()
        with contextlib.suppress(BrokenPipeError):
            self.process.stdin.write(script.encode())
            self.process.stdin.flush()
        last, waited = before, 0
        while waited < 3:
            time.sleep(pause)
            now = self.microseconds()
            waited = waited + 1 if now == last and self.waits() else 0
            last = now
        return last - before

    def replied(self) -> bytes:
        """Its replies, at its end."""
        assert self.process.stdin
        with contextlib.suppress(BrokenPipeError):
            self.process.stdin.close()
        if self.process.wait():
            raise Otherwise(f"status {self.process.returncode} of commits by turns")
        self.out.seek(0)
        return self.out.read()


class Commits(NamedTuple):
    """Commits on a report that the programs hold already.

    Each in turn is given so many, and the kernel's count of its processor time is read once it waits for more: a turn takes
    hundredths of a second. The mean of all turns is taken, since work that is put off falls into few of them. Instructions are
    those of 2,000 commits, less those of the load.
    """

    facts: int
    turns: int = 40
    commits: int = 250
    counted: bool = True

    def rows(self, setting: Setting) -> Iterator[Row]:
        runs = [Waiting([program, "run", *setting.table()]) for program in setting.commands()]
        for run in runs:
            run.given(works.load(self.facts) + "\n", 0.1)
        lines = works.exchanged(self.facts, self.turns * self.commits)
        took = [0.0 for _ in runs]
        for turn in range(self.turns):
            script = "".join(f"{line}\n" for line in itertools.islice(lines, self.commits * 6))
            for at in (0, 1) if turn % 2 else (1, 0):
                took[at] += runs[at].given(script, 0.005)
        replies = [run.replied() for run in runs]
        if replies[0] != replies[1] or replies[0].count(b'["committed",') != self.turns * self.commits:
            raise Otherwise(f"{self.facts:,} facts, commits by turns: the replies differ, or not all were committed")
        says = f"a commit of four changes on {self.facts:,} facts"
        yield Row(says, Pair(*(its / self.turns / self.commits for its in took)), "µs", None, self.counts_of(setting))

    def counts_of(self, setting: Setting) -> Optional[Pair]:
        if not (setting.counts and self.counted):
            return None
        scripts = [setting.written(f"commits-{many}", works.committed(self.facts, many)) for many in (0, 2_000)]
        runs = [
            [instructions([program, "run", *setting.table()], script, setting.room / "replies") for script in scripts]
            for program in setting.commands()
        ]
        return Pair(*((many - none) / 2_000 for none, many in runs))


class Threads(NamedTuple):
    """One script, some at once, and processes of one script each, which share nothing but the machine, by the wall."""

    says: str
    script: Callable[[int, int], Iterable[str]]
    at_once: tuple[int, ...] = (4,)
    processes: int = 0
    on_one_report: int = 0

    def rows(self, setting: Setting) -> Iterator[Row]:
        one = self.row(setting, f"a script in threads: {self.says}", [[0]], [1])
        yield one._replace(counted=self.counts_of(setting))
        for count in self.at_once:
            yield self.row(setting, f"{count} at once", [list(range(count))], range(1, count + 1), one)
        if self.processes:
            yield self.row(
                setting,
                f"{self.processes} at once, each a process",
                [[at] for at in range(self.processes)],
                range(1, self.processes + 1),
                one,
            )
        if self.on_one_report:
            yield self.row(
                setting,
                f"{self.on_one_report} at once, on one report",
                [list(range(self.on_one_report))],
                [1] * self.on_one_report,
                one,
            )

    def counts_of(self, setting: Setting) -> Optional[Pair]:
        """The instructions of one script."""
        if not setting.counts:
            return None
        words = ["threads", *setting.table(), str(setting.written("script", self.script(0, 1)))]
        return Pair(
            *(instructions([program, *words], None, setting.room / "replies") for program in setting.commands())
        )

    def row(
        self, setting: Setting, says: str, groups: list[list[int]], reports: Iterable[int], one: Optional[Row] = None
    ) -> Row:
        paths = [setting.written(f"script-{at}", self.script(at, report)) for at, report in enumerate(reports)]
        took: list[list[float]] = [[], []]
        for _ in range(setting.turns + 1):
            told = []
            for program, its in zip(setting.commands(), took):
                seconds, replies = at_once(
                    [[program, "threads", *setting.table(), *(str(paths[at]) for at in group)] for group in groups]
                )
                its.append(seconds)
                told.append(replies)
            if told[0] != told[1]:
                raise Otherwise(f"{self.says}, {says}: the replies differ")
        wall = Pair(*(statistics.median(its[1:]) for its in took))
        return Row(says, wall, "s", of_one=wall.mine / one.time.mine if one else None)


def at_once(commands: list[list[str]]) -> tuple[float, list[bytes]]:
    """The seconds of processes that begin at once, and the replies of each without numbers of versions."""
    outs = [tempfile.TemporaryFile() for _ in commands]
    began = time.perf_counter()
    runs = [subprocess.Popen(command, stdout=out) for command, out in zip(commands, outs)]
    statuses = [run.wait() for run in runs]
    took = time.perf_counter() - began
    if any(statuses):
        raise Otherwise(f"statuses {statuses} of scripts in threads")
    for out in outs:
        out.seek(0)
    return took, [NUMBERED.sub(b"[]", out.read()) for out in outs]
