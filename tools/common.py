"""What the tools share: the repository and its program, cases that expect something, and how a tool says that it cannot run."""
import importlib.machinery
import importlib.util
import os
import shutil
import subprocess
import sys
import tempfile
from pathlib import Path
from typing import Any, Callable, NoReturn, Optional, Union

ROOT = Path(__file__).resolve().parent.parent
# Where `rt run` leaves the program.
PROGRAM = ROOT / "crates/filing/out/filing"
# The status of a tool that lacks what it needs, as test harnesses have it.
CANNOT_RUN = 77
IS_ROOT = os.geteuid() == 0
NOBODY = 65534


def cannot_run(why: str) -> NoReturn:
    """Ends a tool that lacks what it needs."""
    print(why, file=sys.stderr)
    sys.exit(CANNOT_RUN)


def program_path(named: Union[str, Path, None] = None) -> str:
    """The program that is named, else that of $FILING, else the one that `rt run` has built."""
    path = Path(named or os.environ.get("FILING") or PROGRAM).resolve()
    if not path.is_file():
        cannot_run(f"no program at {path}: `rt run` in crates/filing builds it, and $FILING may name another")
    return str(path)


def copied_for_all(program: str, folder: str) -> str:
    """A copy of the program, in a folder that other users reach too."""
    os.chmod(folder, 0o755)
    copy = shutil.copy(program, f"{folder}/filing")
    os.chmod(copy, 0o755)
    return copy


def loaded(name: str) -> Any:
    """A tool as a module."""
    loader = importlib.machinery.SourceFileLoader(name, str(ROOT / "tools" / name))
    spec = importlib.util.spec_from_loader(name, loader)
    assert spec
    tool = importlib.util.module_from_spec(spec)
    loader.exec_module(tool)
    return tool


# ---- cases


class Differs(Exception):
    """A case is not as it should be."""


class PassedOver(Exception):
    """A case cannot be made here."""


def shortened(value: object) -> str:
    """A value as text, without the middle of a long one."""
    text = repr(value)
    return text if len(text) < 1_000 else f"{text[:500]} .. {text[-500:]}"


def expect(what: str, found: object, wanted: object) -> None:
    if found != wanted:
        raise Differs(f"{what}: {shortened(found)}, and not {shortened(wanted)}")


def outcome(look: Callable[[Path], Optional[str]]) -> str:
    """What a case comes to, in a folder of its own that other users reach too."""
    with tempfile.TemporaryDirectory() as room:
        folder = Path(room) / "files"
        folder.mkdir()
        os.chmod(room, 0o755)
        try:
            found = look(folder)
            return f"ok, {found}" if found else "ok"
        except Differs as differs:
            return f"FAILED: {differs}"
        except PassedOver as why:
            return f"passed over: {why}"
        except subprocess.TimeoutExpired:
            return "FAILED: it did not end"
