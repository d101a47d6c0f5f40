"""What one run of a program takes: time, memory and instructions of that process alone.

GNU time (Debian's `time`) starts the program, since the peak memory of a process counts in that of those that it
starts, and that of Python is large. Instructions are counted by perf where the processor lets it, else by valgrind.
"""
import functools
import os
import re
import resource
import shutil
import subprocess
import tempfile
import time
from pathlib import Path
from typing import NamedTuple, Optional, Sequence

from common import cannot_run


class Otherwise(Exception):
    """A run did not end as it should."""


class Taken(NamedTuple):
    """Seconds of the wall clock, seconds of processors, and MB at most."""

    wall: float
    processor: float
    memory: float


def run(command: Sequence[str], given: Optional[Path], replies: Path) -> tuple[float, resource.struct_rusage]:
    """Runs a command on a file, and gives the seconds that passed and what it and its children used."""
    with open(given or os.devnull, "rb") as lines, open(replies, "wb") as told:
        began = time.perf_counter()
        child = subprocess.Popen(command, stdin=lines, stdout=told)
        _, status, used = os.wait4(child.pid, 0)
        wall = time.perf_counter() - began
    child.returncode = os.waitstatus_to_exitcode(status)
    if child.returncode:
        raise Otherwise(f"status {child.returncode}: {' '.join(command)}")
    return wall, used


def taken(command: Sequence[str], given: Optional[Path], replies: Path) -> Taken:
    """What a run takes."""
    timer = shutil.which("time")
    if not timer:
        cannot_run("there is no GNU time: Debian's package time has it")
    with tempfile.NamedTemporaryFile("r") as told:
        timed = [timer, "-q", "-o", told.name, "-f", "%M", *command]
        wall, used = run(timed, given, replies)
        return Taken(wall, used.ru_utime + used.ru_stime, int(told.read()) / 1024)


@functools.cache
def counter() -> Optional[str]:
    """The program that counts instructions here, if there is one."""
    if perf := shutil.which("perf"):
        tried = subprocess.run(
            [perf, "stat", "-x", ",", "-e", "instructions:u", "true"], capture_output=True, text=True
        )
        if re.match(r"\d+,", tried.stderr):
            return perf
    return shutil.which("valgrind")


def instructions(command: Sequence[str], given: Optional[Path], replies: Path) -> int:
    """How many instructions a run takes outside the kernel."""
    program = counter()
    if not program:
        cannot_run("neither perf nor valgrind counts instructions here")
    with tempfile.NamedTemporaryFile("r") as told:
        if Path(program).name == "perf":
            counting, found = ["stat", "-x", ",", "-e", "instructions:u", "-o", told.name], r"^(\d+),"
        else:
            plain = ["--tool=cachegrind", "--cache-sim=no", "--cachegrind-out-file=/dev/null"]
            counting, found = [*plain, f"--log-file={told.name}"], r"I\s+refs:\s+([\d,]+)"
        run([program, *counting, *command], given, replies)
        return int("".join(re.findall(found, told.read(), re.M)).replace(",", ""))
