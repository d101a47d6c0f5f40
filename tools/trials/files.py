"""Cases of files: what is taken as a journal, what is cut off, what is refused, and paths."""
import json
import os
import re
import stat
import subprocess
from pathlib import Path

from model import journals
from trials.starts import (
    AS_NOBODY,
    BEGUN,
    FACT,
    GATE,
    IS_ROOT,
    LINES,
    MORE,
    MORE_LINES,
    MORE_REPLIES,
    NO_JOURNAL,
    PATIENCE,
    READ_FAULT,
    REPLIES,
    ROWS,
    SCRIPT,
    TRIED,
    WHOLE,
    WRITE_FAULT,
    PassedOver,
    Run,
    alone,
    at_entry,
    at_line,
    begins_anew,
    begun,
    cannot_be_written,
    case,
    content,
    counted,
    expect,
    goes_on,
    holds,
    journal_of,
    judged,
    keeps,
    made,
    on_small_disk,
    refused,
    without_warning,
    words_of,
)

TIME = re.compile(r"\d{4}-\d\d-\d\dT\d\d:\d\d:\d\d\.\d{3}Z")
DATA = Path(__file__).resolve().parent.parent.parent / "crates/conformance/data"


# ---- journals that go on


def said(*words, **how):
    """The status of the program, what it writes and what it tells."""
    done = subprocess.run([TRIED.program, *map(str, words)], capture_output=True, timeout=PATIENCE, **how)
    return done.returncode, done.stdout, done.stderr


@case("a new journal is made, which is told, and has the entries that `--history` writes")
def _(folder):
    run = Run(folder / "j", SCRIPT)
    run.ends(0, REPLIES)
    expect("what is told", run.warned, f'filing: a new journal "{folder / "j"}"\n'.encode())
    said("run", "--numeric", TRIED.table, "--history", folder / "h", input=SCRIPT)
    keeps(folder / "j", content(folder / "h"))
    judged(folder / "j")
    expect("its entries", said("history", folder / "j"), (0, content(folder / "h"), b""))
    alone(folder, "h", "j")


@case("a journal has its table and its marks: when each batch was put, and who opened which session")
def _(folder):
    found = journals.read(content(begun(folder / "j")))
    expect("the table", found.rows, ROWS)
    expect("batches", [mark.entries for mark in found.marks][0], 0)
    expect("entries", sum(mark.entries for mark in found.marks), LINES.count(b"\n"))
    expect("names", {number: name for mark in found.marks for number, name in mark.opened.items()}, {"1": "s"})
    times = [mark.time for mark in found.marks]
    expect("times", times == sorted(times) and all(TIME.fullmatch(time) for time in times), True)
    expect("its last digest", said("seal", folder / "j")[1], sealed(found, 4, 2))
    made(folder / "tables", b"http://e.org/u B\nhttp://e.org/t Assets\nhttp://e.org/u B\n")
    done = subprocess.run(words_of(folder / "k", table=folder / "tables"), input=b"", capture_output=True)
    expect("the status", done.returncode, 0)
    expect("rows in their order, each once", journals.read(content(folder / "k")).rows, [*ROWS, "http://e.org/u B"])


def sealed(found, entries, version):
    told = f'["sealed",{len(found.marks)},{entries},{version},"{found.marks[-1].digest}"]\n'
    return told.encode()


@case("a seal is that of a journal which goes on from it, and of no other")
def _(folder):
    seal = journals.read(content(begun(folder / "j"))).marks[-1].digest
    goes_on(folder / "j")
    for digest in (seal, journals.read(content(folder / "j")).marks[-1].digest):
        expect("its own", said("verify", "--seal", digest, folder / "j"), (0, b'["lawful"]\n', b""))
    for digest in ("0" * 64, journals.read(content(begun(folder / "other"))).marks[-1].digest):
        expect("another's", said("verify", "--seal", digest, folder / "j")[:2], (4, b'["lawful"]\n'))


@case("it goes on from the history in it, with the next numbers")
def _(folder):
    goes_on(begun(folder / "j"))
    Run(folder / "j", SCRIPT).ends(0, b'["name-taken"]\n["opened"]\n["taken"]\n["committed",3]\n')
    judged(folder / "j")
    alone(folder, "j")


@case("a script without a line leaves it as it is, and a new one without an entry")
def _(folder):
    before = content(begun(folder / "j"))
    Run(folder / "j").ends()
    holds(folder / "j", before)
    Run(folder / "new", b"\n \n").ends()
    keeps(folder / "new", b"")
    begins_anew(folder / "new")


@case("the file is written where it is: its mode, its number and its other name stay")
def _(folder):
    begun(folder / "j").chmod(0o640)
    os.link(folder / "j", folder / "other")
    before = os.stat(folder / "j")
    goes_on(folder / "j")
    after = os.stat(folder / "other")
    expect("mode and number", (after.st_mode, after.st_ino), (before.st_mode, before.st_ino))
    keeps(folder / "other", LINES + MORE_LINES)


@case("a new journal is its owner's alone, and what stands beside it stays")
def _(folder):
    made(folder / "j.new-1", b"other")
    expect("its rights", stat.S_IMODE(begun(folder / "j").stat().st_mode), 0o600)
    holds(folder / "j.new-1", b"other")
    alone(folder, "j", "j.new-1")


def replace(journal):
    made(journal.with_name("new"), BEGUN + GATE).rename(journal)


for _way in (replace, Path.unlink):

    @case(f"nothing more is acknowledged once somebody did this to the file below a run: {_way.__name__}")
    def _(folder, way=_way):
        with subprocess.Popen(
            words_of(folder / "j"), stdin=subprocess.PIPE, stdout=subprocess.PIPE, stderr=subprocess.PIPE
        ) as run:
            run.stdin.write(SCRIPT)
            run.stdin.flush()
            expect("the replies before", b"".join(run.stdout.readline() for _ in REPLIES.splitlines()), REPLIES)
            way(folder / "j")
            written, told = run.communicate(SCRIPT.replace(b"r1", b"r2"), timeout=PATIENCE)
        expect("status and standard error", (run.returncode, without_warning(told)), (1, WRITE_FAULT))
        expect("the replies after", written, b"")


@case("sessions that were open when it ended are abandoned, and their numbers are not used again")
def _(folder):
    begun(folder / "j")
    Run(folder / "j", f'["open","s","amend"]\n["add","s","r1","f2",{FACT}]\n'.encode()).ends(
        0, b'["opened"]\n["staged"]\n'
    )
    script = b'["commit","s"]\n["open","s","review"]\n["get","s","r1","f2"]\n'
    Run(folder / "j", script).ends(0, b'["no-session"]\n["opened"]\n["none"]\n')
    lines = f'[2,["open","amend"],["opened"]]\n[2,["add","r1","f2",{FACT}],["staged"]]\n'.encode()
    keeps(folder / "j", LINES + lines + b'[3,["open","review"],["opened"]]\n[3,["get","r1","f2"],["none"]]\n')


@case("the stored scripts: their replies, and their histories as entries, which are opened again")
def _(folder):
    for script in sorted(DATA.glob("*.jsonl")):
        if not script.with_suffix(".history").exists():
            continue
        lines = script.with_suffix(".history").read_bytes()
        for every in ([], ["--every-reply"]):
            journal = folder / f"{script.stem}{len(every)}"
            for given, replies in ((script.read_bytes(), script.with_suffix(".replies").read_bytes()), (b"", b"")):
                words = [*words_of(journal, table=DATA / "numeric.txt"), *every]
                done = subprocess.run(words, input=given, capture_output=True, timeout=PATIENCE)
                expect(script.name, (done.returncode, without_warning(done.stderr), done.stdout), (0, b"", replies))
                keeps(journal, lines)
    if not list(folder.iterdir()):
        raise PassedOver("there are none")


@case("a journal without a gate goes on")
def _(folder):
    goes_on(made(folder / "j", BEGUN))


@case("a history is no journal, and is the beginning of a new one")
def _(folder):
    refused(made(folder / "h", LINES), NO_JOURNAL)
    refused(made(folder / "old", LINES + GATE), NO_JOURNAL)
    run = Run(folder / "j", words=["--from", str(folder / "h")])
    run.ends()
    keeps(folder / "j", LINES)
    goes_on(folder / "j")


@case("a link to a journal is followed and stays; where it leads to nothing, no journal is made")
def _(folder):
    (folder / "sub").mkdir()
    (folder / "link").symlink_to("sub/j")
    cannot_be_written(folder / "link")
    alone(folder / "sub")
    begun(folder / "sub" / "j")
    goes_on(folder / "link")
    keeps(folder / "sub" / "j", LINES + MORE_LINES)
    expect("the link", os.readlink(folder / "link"), "sub/j")
    alone(folder, "link", "sub")
    alone(folder / "sub", "j")


@case("a path without a folder is in the current one, and names may be long and no ASCII")
def _(folder):
    Run("j", SCRIPT, cwd=folder).ends(0, REPLIES)
    keeps(folder / "j", LINES)
    goes_on(begun(folder / "Geschäft 2024 ☂.jsonl"))
    goes_on(begun(folder / ("j" * 249)))
    for length in (250, 256):
        cannot_be_written(folder / ("j" * length))
    alone(folder, "j", "Geschäft 2024 ☂.jsonl", "j" * 249)


# ---- what stands behind the lines


TAILS = {
    "a staged batch": GATE + WHOLE[len(BEGUN) + 1 :] + GATE,
    "a staged batch without its mark": GATE + b'2,["open","review"],["opened"]]\n\n',
    "a part of a staged batch": GATE + b'2,["open","rev',
    "zeros behind the gate": GATE + bytes(4096),
    "bytes that are no text": GATE + bytes(range(256)) * 50,
    "a zero in the gate's place": b"\0",
}


def kept(path, tail, number=1):
    """What is told of a tail that was cut off, which is in a file beside; nothing of a gate."""
    if len(tail) < 2:
        return b""
    beside = path.with_name(f"{path.name}.cut-{number}")
    holds(beside, tail)
    expect("its rights", stat.S_IMODE(beside.stat().st_mode), 0o600)
    told = "filing: warning: journal: %d bytes of a put that was under way after 4 entries were cut off, and kept in "
    return f'{told % len(tail)}"{beside}"\n'.encode()


for _name, _tail in TAILS.items():

    @case(f"what a put left behind the lines is cut off, and kept where it is more than a gate: {_name}")
    def _(folder, tail=_tail):
        run = Run(made(folder / "j", BEGUN + tail))
        run.ends()
        expect("the warning", run.warned, kept(folder / "j", tail))
        holds(folder / "j", BEGUN + GATE)
        goes_on(made(folder / "other", BEGUN + tail))
        threads, script = made(folder / "threads", BEGUN + tail), made(folder / "script", MORE)
        words = ["threads", "--numeric", TRIED.table, "--journal", str(threads), str(script)]
        done = subprocess.run([TRIED.program, *words], capture_output=True, timeout=PATIENCE)
        expect("the warning of threads", done.stderr, kept(threads, tail))
        # A review in threads takes no lock, and so is no entry.
        holds(threads, BEGUN + GATE)


@case("what is cut off is kept under the first name that is free, where a link leads; nothing is written over")
def _(folder):
    (folder / "sub").mkdir()
    (folder / "link").symlink_to("sub/j")
    tail = TAILS["a staged batch"]
    made(folder / "sub" / "j.cut-1", b"other")
    run = Run(made(folder / "sub" / "j", BEGUN + tail) and folder / "link")
    run.ends()
    expect("the warning", run.warned, kept((folder / "sub").resolve() / "j", tail, 2))
    holds(folder / "sub" / "j.cut-1", b"other")
    alone(folder, "link", "sub")
    alone(folder / "sub", "j", "j.cut-1", "j.cut-2")


@case("where no file can be made beside it, it is a write fault, and nothing is cut off")
def _(folder):
    if not IS_ROOT:
        raise PassedOver("it wants root")
    (folder / "sub").mkdir()
    journal = made(folder / "sub" / "j", BEGUN + TAILS["a staged batch"], 0o666)
    (folder / "sub").chmod(0o555)
    Run(journal, **AS_NOBODY).ends(1, b"", WRITE_FAULT)
    holds(journal, BEGUN + TAILS["a staged batch"])


DAMAGE = {
    "two staged batches": GATE + journal_of(LINES, MORE_LINES, MORE_LINES)[len(BEGUN) + 1 :] + GATE,
    "entries without their mark": MORE_LINES,
    "entries without their mark, and a gate": MORE_LINES + GATE,
    "further lines behind the gate": GATE + MORE_LINES,
    "further lines and gates": GATE + MORE_LINES + GATE + GATE,
    "an object behind the gate": GATE + b"{}\n",
    "a half line": b'[2,["open","review"],["ope',
    "a whole line that no line feed ends": MORE_LINES[: MORE_LINES.index(b"\n")],
    "a line that begins with two brackets": b"[" + MORE_LINES,
    "one byte": b"x",
    "two zeros": bytes(2),
    "a gate that is another byte, with a batch behind it": b'x2,["open","review"],["opened"]]\n\n',
    "a carriage return before the gate": b"\r\n",
    "many gates": GATE * 5_000,
    "two empty lines, and lines behind them": GATE + GATE + MORE_LINES,
}

for _name, _tail in DAMAGE.items():

    @case(f"what no put left behind the lines is damage: {_name}")
    def _(folder, tail=_tail):
        begins = journals.recovered(BEGUN + tail)
        refused(made(folder / "j", BEGUN + tail), at_line(begins.count(b"\n") + 1))
        alone(folder, "j")


@case("what is taken can be read again, however deep the links of a fact nest, added or loaded")
def _(folder):
    info = '{"documentType":"https://xbrl.org/2021/xbrl-json","namespaces":{"ex":"http://e.org/t"}}'
    for depth in range(116, 128):
        links = '{"a":' * depth + "1" + "}" * depth
        fact = '{"value":"x","dimensions":{"concept":"ex:A"},"links":%s}' % links
        bare, full = ('{"documentInfo":%s,"facts":{%s}}' % (info, facts) for facts in ("", '"f1":%s' % fact))
        for name, report, added in ("added", bare, fact), ("object", full, FACT), ("text", json.dumps(full), FACT):
            script = f'["load","r1",{report}]\n["open","s","amend"]\n["add","s","r1","f2",{added}]\n["commit","s"]\n'
            path = folder / f"{name}-{depth}"
            run = Run(path, script.encode())
            deep = b"filing: line %d nests too deep for the journal\n" % (3 if name == "added" else 1)
            expect("how it ends", (run.status, run.told) in ((0, b""), (1, deep)), True)
            Run(path).ends()
            judged(path)


@case("the journal has the entries of all lines that are answered before a line that nests too deep")
def _(folder):
    links = '{"a":' * 124 + "1" + "}" * 124
    info = '"documentType":"https://xbrl.org/2021/xbrl-json","namespaces":{"ex":"http://e.org/t"}'
    load, deep = '["load","r1",{"documentInfo":{%s}}]\n' % info, '["load","r2",{"documentInfo":{%s,"ex:a":%s}}]\n' % (
        info,
        links,
    )
    opened = '["open","s","amend"]\n'
    scripts = (
        ("opened", opened, b'["opened"]\n'),
        ("loaded", load + opened, b'["loaded",1]\n["opened"]\n'),
        ("nothing", "", b""),
    )
    for name, script, replies in scripts:
        for words in ([], ["--every-reply"]):
            path, lines = folder / f"{name}-{len(words)}", script.count("\n")
            told = b"filing: line %d nests too deep for the journal\n" % (lines + 1)
            Run(path, (script + deep + opened).encode(), words).ends(1, replies, told)
            expect("the entries", counted(content(path))[0].count(b"\n"), lines)
            judged(path)
            Run(path).ends()


@case("in threads a script ends before a line that nests too deep for the journal, which gets all else")
def _(folder):
    links = '{"a":' * 125 + "1" + "}" * 125
    info = '{"documentType":"https://xbrl.org/2021/xbrl-json","namespaces":{"ex":"http://e.org/t"}}'
    deep = '["add","s","r1","f1",{"value":"x","dimensions":{"concept":"ex:A"},"links":%s}]' % links
    loads = '["load","r1",{"documentInfo":%s}]' % info
    first = made(folder / "first", f'{loads}\n\n["open","s","amend"]\n{deep}\n["commit","s"]\n'.encode())
    second = made(folder / "second", b'["open","s","amend"]\n["close","s"]\n')
    words = ["threads", "--numeric", TRIED.table, "--journal", str(folder / "j"), str(first), str(second)]
    done = subprocess.run([TRIED.program, *words], capture_output=True, timeout=PATIENCE)
    told = b"filing: in %s:\nfiling: line 4 nests too deep for the journal\n" % bytes(first)
    replies = b'["loaded",1]\n["opened"]\n["opened"]\n["closed"]\n'
    expect("how it ends", (done.returncode, done.stdout, without_warning(done.stderr)), (1, replies, told))
    expect("the entries", counted(content(folder / "j"))[0].count(b"\n"), 4)
    judged(folder / "j")
    Run(folder / "j").ends()


@case("a batch that is staged and opened counts")
def _(folder):
    made(folder / "j", WHOLE)
    Run(folder / "j").ends()
    holds(folder / "j", WHOLE + GATE)


# ---- what is refused, and left as it is


FOREIGN = [b"hello\n", b"h", b"\xef\xbb\xbf" + BEGUN, b" " + BEGUN, GATE + BEGUN, b"{}\n", b"[half", BEGUN[:20]]


@case("what does not begin as a journal is none: an empty file, a gate, a zero, a foreign file")
def _(folder):
    others = [b"", b"\n", b"\0", b"\0\0", GATE + b"hello\n", GATE + LINES[1:], b"[" * 5_000, GATE * 5_000]
    for number, data in enumerate(FOREIGN + others):
        refused(made(folder / f"j{number}", data), NO_JOURNAL)


def lines_with(number, old, new):
    """The lines of the amendment, with another text in one of them."""
    lines = LINES.splitlines(True)
    expect("a text to be changed", lines[number - 1].count(old), 1)
    lines[number - 1] = lines[number - 1].replace(old, new)
    return b"".join(lines)


CHANGES = {
    "a letter of a reply is another": (3, b'"staged"', b'"stagee"'),
    "a letter of a step is another": (3, b'"add"', b'"adb"'),
    "a letter is no text": (3, b"ex:Assets", b"ex:\xffssets"),
    "a letter is a zero byte": (3, b"ex:Assets", b"ex:\0ssets"),
    "a reply that is not the one due": (3, b'["staged"]', b'["taken"]'),
    "a commit of another number": (4, b'["committed",2]', b'["committed",3]'),
    "another session's number": (2, b"[1,", b"[2,"),
    "a space": (3, b'["add",', b'["add", '),
    "a space behind a line": (2, b"\n", b" \n"),
    "a carriage return behind a line": (1, b"\n", b"\r\n"),
    "members in another order": (3, FACT.encode(), b'{"value":"1","dimensions":{"concept":"ex:Assets"}}'),
    "an escape for a letter": (3, b'"f1"', b'"f\\u0031"'),
    "a further part": (3, b'["staged"]]', b'["staged"],1]'),
    "two lines in one": (2, b'["opened"]]\n', b'["opened"]][1,["close"],["closed"]]\n'),
    "a bad line of a script": (2, b'[1,["open","amend"],["opened"]]', b'["open","s","amend"]'),
}

for _name, (_number, _old, _new) in CHANGES.items():

    @case(f"it is refused at its entry where the marks are of that, and else at the mark behind it: {_name}")
    def _(folder, number=_number, old=_old, new=_new):
        entries = lines_with(number, old, new)
        refused(made(folder / "j", journal_of(entries) + GATE), at_entry(number))
        refused(made(folder / "torn", journal_of(entries) + GATE + b"torn"), at_entry(number))
        changed = BEGUN.replace(LINES, entries)
        refused(made(folder / "changed", changed + GATE), at_line(changed.count(b"\n")))


@case("an entry that is left out, or stands twice, is refused where the history departs")
def _(folder):
    one, two, three, four = LINES.splitlines(True)
    for number, lines in enumerate([[one, three, four], [two, three, four], [one, two, three, four, four], [one, one]]):
        refused(made(folder / f"j{number}", journal_of(b"".join(lines)) + GATE), at_entry([2, 2, 5, 2][number]))


@case("with another numeric table it is refused, and with its own or none it goes on")
def _(folder):
    decimals = LINES.replace(b'{"dimensions"', b'{"decimals":0,"dimensions"')
    data = content(made(folder / "j", journal_of(decimals) + GATE))
    made(folder / "table", b"http://e.org/t Assets\nhttp://e.org/t Other\n")
    told = (2, b"", b"filing: the journal has another numeric table\n")
    expect("another", said("run", "--numeric", folder / "table", "--journal", folder / "j", input=b""), told)
    holds(folder / "j", data)
    expect("none", said("run", "--journal", folder / "j", input=b""), (0, b"", b""))
    Run(folder / "j").ends()
    made(folder / "k", journals.text_of([], [decimals]) + GATE)
    expect("by its own it departs", said("run", "--journal", folder / "k", input=b""), (4, b"", at_entry(3)))


@case("an entry whose first letter is another, an empty line and one with a bracket more are refused")
def _(folder):
    for number, new in enumerate([b"(1,", b"\n[1,", b"[[1,", b"[{1,", b"1,"]):
        refused(made(folder / f"j{number}", BEGUN.replace(LINES, lines_with(3, b"[1,", new)) + GATE), at_line(6))


@case("repaired behind a batch, it goes on from there, and what stood behind is kept beside it")
def _(folder):
    damaged = WHOLE.replace(b'["closed"]', b'["close"]') + GATE + b"torn"
    refused(made(folder / "j", damaged), at_line(WHOLE.count(b"\n")))
    expect("too many", said("repair", "--keep", 2, folder / "j")[:2], (4, b""))
    expect("more than there are", said("repair", "--keep", 3, folder / "j")[:2], (2, b""))
    holds(folder / "j", damaged)
    alone(folder, "j")
    expect("the first batch", said("repair", "--keep", 1, folder / "j")[:2], (0, b""))
    holds(folder / "j", BEGUN + GATE)
    holds(folder / "j.cut-1", damaged[len(BEGUN) :])
    goes_on(folder / "j")
    expect("none", said("repair", "--keep", 0, folder / "j")[:2], (0, b""))
    begins_anew(folder / "j")


@case("a journal is read up to its gate by the views, as a history to go on from, and written out")
def _(folder):
    for number, tail in enumerate([b"", GATE, *TAILS.values()]):
        path = made(folder / f"j{number}", BEGUN + tail)
        expect("history", said("history", path), (0, LINES, b""))
        expect("show", said("show", path), (0, b'["version",2]\n["report","r1",1,"all"]\n', b""))
        logged = b'[null,"load","r1",["loaded",1],null]\n[1,"amend",1,["committed",2],1,null,null,null]\n'
        expect("log", said("log", path), (0, logged, b""))
        expect("diff", said("diff", path, 0, 1)[:2], (0, b'["report","r1"]\n'))
        expect("from", said("run", "--from", path, input=MORE), (0, MORE_REPLIES, b""))
        holds(path, BEGUN + tail)
    expect("check", said("check", folder / "j0")[:2], (4, b'["departs",0]\n'))


# ---- paths that will not do


@case("a folder, a missing folder, a path that names no file, a circle of links: a write fault")
def _(folder):
    (folder / "sub").mkdir()
    (folder / "one").symlink_to("two")
    (folder / "two").symlink_to("one")
    made(folder / "file", b"")
    for path in ("sub", "sub/", "missing/j", "new/", "one", "file/j", "file/"):
        cannot_be_written(f"{folder}/{path}")
    cannot_be_written("")
    alone(folder, "file", "one", "sub", "two")
    alone(folder / "sub")
    holds(folder / "file", b"")


@case("devices and pipes are no journals: a write fault, and they stay")
def _(folder):
    os.mkfifo(folder / "pipe")
    for path in ("/dev/null", "/dev/full", "/dev/stdin", folder / "pipe"):
        cannot_be_written(path)
    expect("a pipe", stat.S_ISFIFO(os.lstat(folder / "pipe").st_mode), True)


@case("a file that may not be written, or not be read: a write fault, and it stays")
def _(folder):
    folder.chmod(0o777)
    how = AS_NOBODY if IS_ROOT else {}
    for mode in (0o444, 0o222, 0):
        begun(folder / f"j{mode}").chmod(mode)
        cannot_be_written(folder / f"j{mode}", **how)
        (folder / f"j{mode}").chmod(0o666)
        goes_on(folder / f"j{mode}")


@case("a folder that takes no new file: a write fault")
def _(folder):
    folder.chmod(0o555)
    cannot_be_written(folder / "j", **(AS_NOBODY if IS_ROOT else {}))
    alone(folder)


@case("a disk that may only be read: a write fault, and the journal stays")
def _(folder):
    def look(disk):
        begun(disk / "j")
        subprocess.run(["mount", "-o", "remount,ro", str(disk)], check=True)
        cannot_be_written(disk / "j")
        cannot_be_written(disk / "new")
        keeps(disk / "j", LINES)
        subprocess.run(["mount", "-o", "remount,rw", str(disk)], check=True)
        goes_on(disk / "j")

    on_small_disk(folder, look)


@case("a table that will not do comes before the journal, which is not made")
def _(folder):
    bad = made(folder / "bad", b"bad\n")
    for table, status, told in ((bad, 2, b"filing: numeric table, line 1\n"), (folder / "missing", 1, READ_FAULT)):
        done = subprocess.run(words_of(folder / "j", table=table), input=SCRIPT, capture_output=True, timeout=PATIENCE)
        expect("what came", (done.returncode, done.stdout, done.stderr), (status, b"", told))
    alone(folder, "bad")
