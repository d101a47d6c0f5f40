"""Runs of the program with a journal, what it is told to hold, and what is expected of both."""
import os
import re
import stat
import subprocess
import threading
import time

from common import IS_ROOT, NOBODY, Differs, PassedOver, expect, shortened
from model import journals
from model.journals import GATE
from trials.lines import INFO


class TRIED:
    """The program that is tried, and the numeric table of all runs but those of stored scripts."""

    program = table = ""


# A run that takes longer than this, in seconds, hangs.
PATIENCE = 120
AS_NOBODY = {"user": NOBODY, "group": NOBODY, "extra_groups": []}

WRITE_FAULT = b"filing: write fault\n"
READ_FAULT = b"filing: read fault\n"
NO_MEMORY = b"filing: no memory\n"
IN_USE = b"filing: journal in use\n"
NO_JOURNAL = b"filing: not a journal\n"
FACT = '{"dimensions":{"concept":"ex:Assets"},"value":"1"}'
# The numeric table of all runs but those of stored scripts.
ROWS = ["http://e.org/t Assets"]
# An amendment, and a review that comes after it, each with its replies and its entries.
SCRIPT = f'["load","r1",{{{INFO}}}]\n["open","s","amend"]\n["add","s","r1","f1",{FACT}]\n["commit","s"]\n'.encode()
REPLIES = b'["loaded",1]\n["opened"]\n["staged"]\n["committed",2]\n'
LINES = (
    f'[null,["load","r1",{{{INFO},"facts":{{}}}}],["loaded",1]]\n[1,["open","amend"],["opened"]]\n'
    f'[1,["add","r1","f1",{FACT}],["staged"]]\n[1,["commit"],["committed",2]]\n'
).encode()
MORE = b'["open","s","review"]\n["get","s","r1","f1"]\n["close","s"]\n'
MORE_REPLIES = f'["opened"]\n["fact",{FACT}]\n["closed"]\n'.encode()
MORE_LINES = (
    f'[2,["open","review"],["opened"]]\n[2,["get","r1","f1"],["fact",{FACT}]]\n[2,["close"],["closed"]]\n'.encode()
)
# The same review where nothing was there before.
NONE_REPLIES = b'["opened"]\n["no-report"]\n["closed"]\n'
NONE_LINES = b'[1,["open","review"],["opened"]]\n[1,["get","r1","f1"],["no-report"]]\n[1,["close"],["closed"]]\n'


def journal_of(*batches):
    """The lines of a journal with these batches of entries."""
    return journals.text_of(ROWS, batches)


# Journals of the amendment, and of it with the review behind it.
BEGUN, WHOLE = journal_of(LINES), journal_of(LINES, MORE_LINES)


def at_line(number):
    return f"filing: journal, line {number}\n".encode()


def at_entry(number):
    return f"filing: journal, entry {number}\n".encode()


def counted(data):
    """The entries of a journal, and what stands behind its lines; nothing where there is no file yet."""
    if not data:
        return b"", b""
    try:
        found = journals.read(data)
    except journals.Damaged as damaged:
        raise Differs(f"the journal is damaged at its {damaged}") from None
    return found.entries, found.tail


def content(path):
    return path.read_bytes() if path.exists() else b""


def made(path, data, mode=0o644):
    path.write_bytes(data)
    path.chmod(mode)
    return path


def words_of(journal, every_reply=False, table=None):
    return [
        TRIED.program,
        "run",
        "--numeric",
        str(table or TRIED.table),
        "--journal",
        str(journal),
        *["--every-reply"] * every_reply,
    ]


WARNING = re.compile(
    rb"\Afiling: warning: journal: \d+ bytes of a put that was under way after \d+ entries were cut off, "
    rb'and kept in ".*\.cut-\d+"\n|\Afiling: a new journal ".*"\n'
)


def without_warning(told):
    """What was told on standard error, but for the line that tells what was cut off, or that a journal is new."""
    return WARNING.sub(b"", told)


def is_due(told, every_reply):
    """Whether a reply, or the front of one, is told only once its entry is in the journal."""
    return told.startswith((b'["loaded"', b'["committed"')) or every_reply and told != b""


class Start:
    """The program, started on a journal: the lines that were sent, and the replies that were told."""

    def __init__(self, journal, every_reply=False, prefix=(), **how):
        self.every_reply, self.sent, self.unanswered, self.rest, self.told = every_reply, [], [], b"", 0
        pipes = {name: subprocess.PIPE for name in ("stdin", "stdout", "stderr")}
        self.process = subprocess.Popen([*prefix, *words_of(journal, every_reply)], bufsize=0, **{**pipes, **how})
        self.began = time.monotonic()
        self.first_reply_after, self.writer = None, None

    def send(self, lines):
        """Sends lines, of which the program may take a part, or none where it has ended."""
        self.sent += lines
        self.unanswered += [line for line in lines if not line.is_blank()]
        data = b"".join(line.text for line in lines)
        if len(data) < 30_000:
            return self.write(data)
        # What fills a pipe is written while replies are read.
        self.writer = threading.Thread(target=self.write, args=[data])
        self.writer.start()

    def write(self, data):
        try:
            while data:
                data = data[self.process.stdin.write(data) :]
        except BrokenPipeError:
            pass

    def read(self, size=65536):
        """Reads what replies there are; none at the end of all."""
        part = self.process.stdout.read(size)
        if part and self.first_reply_after is None:
            self.first_reply_after = time.monotonic() - self.began
        *whole, self.rest = (self.rest + part).split(b"\n")
        if len(whole) > len(self.unanswered):
            raise Differs(f"{len(whole)} replies, where {len(self.unanswered)} lines wait for one")
        for line, reply in zip(self.unanswered, whole):
            line.told = reply
        self.told += len(whole)
        del self.unanswered[: len(whole)]
        return bool(part)

    def ask(self, lines):
        """Sends lines and waits for all of their replies. False where the program ended before."""
        self.send(lines)
        while self.unanswered:
            if not self.read():
                return False
        return True

    def ended(self):
        """Closes the script, reads what is left, and gives the status and what was told on standard error."""
        if self.writer is None:
            self.process.stdin.close()
        while self.read():
            pass
        if self.writer is not None:
            self.writer.join()
            self.process.stdin.close()
        error = without_warning(self.process.stderr.read())
        self.process.stdout.close()
        self.process.stderr.close()
        return self.process.wait(PATIENCE), error

    def ends(self, status=0, error=b""):
        expect("status and standard error", self.ended(), (status, error))

    def entries_due(self):
        """How many entries have to be in the journal, by what was told."""
        due, count = 0, 0
        for line in (line for line in self.sent if not line.is_blank()):
            count += line.start is not None
            told = self.rest if line.told is None else line.told
            if is_due(told, self.every_reply):
                due = count
            if line.told is None:
                break
        return due

    def left(self, before, data):
        """The entries that a journal with these entries before now has, compared with what was sent and told."""
        lines, _ = counted(data)
        if not lines.startswith(before):
            raise Differs("entries that were there are not there any more")
        found = lines[len(before) :].split(b"\n")[:-1]
        wanted = [line for line in self.sent if line.start is not None]
        if len(found) > len(wanted):
            raise Differs(f"{len(found)} entries of {len(wanted)} lines: {shortened(found[-1])}")
        for entry, line in zip(found, wanted):
            start = line.start + line.told + b"]" if line.told is not None else line.start
            if not (entry == start if line.told is not None else entry.startswith(start)):
                raise Differs(f"the entry of {shortened(line.text)}: {shortened(entry)}, and not {shortened(start)}")
        if len(found) < self.entries_due():
            raise Differs(f"{len(found)} entries, where {self.entries_due()} were told")
        return lines, wanted[: len(found)]


def judged(journal):
    """Its marks are as they must be, and its entries are a lawful history."""
    done = subprocess.run([TRIED.program, "verify", str(journal)], capture_output=True, timeout=PATIENCE)
    expect("the verdict", (done.returncode, done.stdout, done.stderr), (0, b'["lawful"]\n', b""))


def openings(lines):
    return len(re.findall(rb'(?m)^\[[0-9]+,\["open",', lines))


CASES = []


def case(said):
    """A case is told by what it says."""
    return lambda look: CASES.append((said, look)) or look


class Run:
    """A run of the program with a journal, which has ended."""

    def __init__(self, journal, script=b"", words=(), **how):
        how.setdefault("stdout", subprocess.PIPE)
        run = [*words_of(journal), *words]
        done = subprocess.run(run, input=script, stderr=subprocess.PIPE, timeout=PATIENCE, **how)
        self.status, self.written, self.told = done.returncode, done.stdout, without_warning(done.stderr)
        self.warned = done.stderr[: len(done.stderr) - len(self.told)]

    def ends(self, status=0, written=b"", told=b""):
        expect("status and standard error", (self.status, self.told), (status, told))
        expect("standard output", self.written, written)


def holds(path, data):
    """A regular file is there, and holds this."""
    if not stat.S_ISREG(os.lstat(path).st_mode):
        raise Differs(f"{path.name} is no regular file")
    expect(path.name, path.read_bytes(), data)


def keeps(path, entries):
    """A journal is there, at rest, with these entries."""
    expect(f"the entries of {path.name}, and what stands behind them", counted(path.read_bytes()), (entries, GATE))


def alone(folder, *names):
    """Nothing else is in the folder."""
    expect("the folder", sorted(it.name for it in folder.iterdir()), sorted(names))


def begun(journal):
    """A new journal with the amendment."""
    Run(journal, SCRIPT).ends(0, REPLIES)
    keeps(journal, LINES)
    return journal


def goes_on(journal):
    """The journal of the amendment takes the review that comes after it, and is at rest then."""
    Run(journal, MORE).ends(0, MORE_REPLIES)
    keeps(journal, LINES + MORE_LINES)


def begins_anew(journal):
    """A journal without an entry, or a new one, takes the review."""
    Run(journal, MORE).ends(0, NONE_REPLIES)
    keeps(journal, NONE_LINES)


def refused(journal, told):
    """The file is refused in these words, whatever the script, and stays as it is."""
    before, found = journal.read_bytes(), os.lstat(journal)
    for script in (b"", MORE):
        run = Run(journal, script)
        expect("how it ends", (run.status, run.written, run.told.splitlines(True)[-1:]), (4, b"", [told]))
        expect("the journal", journal.read_bytes(), before)
    expect("its time", os.lstat(journal).st_mtime_ns, found.st_mtime_ns)


def cannot_be_written(path, **how):
    """Nothing comes of the script, and the fault is one of writing."""
    Run(path, SCRIPT, **how).ends(1, b"", WRITE_FAULT)


def on_small_disk(folder, look, size="64k"):
    """On a disk of some KB."""
    if not IS_ROOT:
        raise PassedOver("it wants root")
    disk = folder / "disk"
    disk.mkdir()
    done = subprocess.run(["mount", "-t", "tmpfs", "-o", f"size={size}", "tmpfs", str(disk)], capture_output=True)
    if done.returncode:
        raise PassedOver("no disk may be made here")
    try:
        look(disk)
    finally:
        subprocess.run(["umount", str(disk)], check=True)
