"""What the tests of the tools share: the built program, and runs of tools and scripts.

The programs are `crates/damon/out/damon` and `crates/damond/out/damond` of this checkout, where `rt ci`, ./damon and
./damond leave them, or those that DAMON and DAMOND in the environment name. The tools ask the same programs.
"""
from __future__ import annotations

import os
import random
import shutil
import subprocess
import sys
import tempfile
import unittest
from functools import lru_cache
from pathlib import Path

TOP = Path(__file__).resolve().parent.parent
TOOLS = TOP / "tools"
KEPT = TOP / "examples/shop.trace.xz"
BUILT = {name: TOP / f"crates/{name}/out/{name}" for name in ("damon", "damond")}
"""The programs of this checkout, by name."""
PROGRAM = Path(os.environ.get("DAMON") or BUILT["damon"])
DAMOND = Path(os.environ.get("DAMOND") or BUILT["damond"])
DEBIANS_PYTHON = "/usr/bin/python3"
SECONDS = 300
if str(TOOLS) not in sys.path:
    sys.path.insert(0, str(TOOLS))


def need_program(*programs: Path) -> None:
    """Fails where one of the programs is missing, `damon` if none is named; called once for each file of tests."""
    for path in programs or (PROGRAM,):
        if not path.is_file():
            raise RuntimeError(f"there is no program {path}: `rt ci` builds it, and so does ./{path.name}")


@lru_cache(maxsize=None)
def interpreter_with(module: str) -> str | None:
    """A python3 that has a module: this one, one that the path names, or Debian's; None if there is no such one."""
    on_path = [shutil.which("python3", path=folder) for folder in os.environ.get("PATH", "").split(os.pathsep)]
    for path in dict.fromkeys(filter(None, (sys.executable, *on_path, DEBIANS_PYTHON))):
        if Path(path).exists() and subprocess.run([path, "-c", f"import {module}"], capture_output=True).returncode == 0:
            return path
    return None


def run(name: str, *words: str, text: bytes = b"", program: Path = PROGRAM) -> subprocess.CompletedProcess[bytes]:
    """Runs a tool."""
    environment = {**os.environ, "DAMON": str(program)}
    return subprocess.run([sys.executable, TOOLS / name, *words], input=text, capture_output=True, timeout=SECONDS, env=environment)


def script_of(trace: bytes, *words: str) -> str:
    """The script that is made of a trace, which must be taken."""
    ran = run("trace_to_script.py", *words, text=trace)
    if ran.returncode != 0:
        raise AssertionError(ran.stderr.decode())
    return ran.stdout.decode()


def notes_of(trace: bytes, *words: str) -> str:
    """The notes of the same."""
    ran = run("trace_to_script.py", *words, text=trace)
    if ran.returncode != 0:
        raise AssertionError(ran.stderr.decode())
    return ran.stderr.decode()


def report_of(script: str, *command: str) -> str:
    """The report of a script, which the program must take; of `replay` where no other command is given."""
    ran = subprocess.run([PROGRAM, *(command or ("replay",))], input=script.encode(), capture_output=True, timeout=SECONDS)
    if ran.returncode != 0:
        raise AssertionError(ran.stderr.decode())
    return ran.stdout.decode()


def random_trace(seed: int, lines: int) -> bytes:
    """A trace over a few areas, with accesses across borders and lines of valgrind itself."""
    source = random.Random(seed)
    bases = [0x108000, 0x4000000, 0x4040000, 0x1FFEFFE000, (1 << 47) - 0x20000]
    result = ["==1== Lackey, an example Valgrind tool"]
    for _ in range(lines):
        first = source.choice(bases) + source.choice([source.randrange(0x1FFF0), 4096 * source.randrange(1, 16) - 1])
        result.append(f"{source.choice(['I ', ' L', ' S', ' M'])} {first:08x},{source.choice([1, 2, 8, 32])}")
        if source.random() < 0.01:
            result.append("==1== ")
    return ("\n".join(result) + "\n").encode()


def counts_of_report(report: str) -> list[dict[int, int]]:
    """For each aggregation the count of each page, where each region is one page."""
    result: list[dict[int, int]] = []
    for line in report[: report.index("show ")].splitlines():
        words = line.split()
        if words[0] == "aggregate":
            result.append({})
        elif words[0] == "row":
            first, after = (int(address, 16) // 4096 for address in words[2].split("-"))
            assert after == first + 1, line
            result[-1][first] = int(words[3].removeprefix("count="))
    return result


def check_same(made: bytes, wanted: Path) -> None:
    """Fails if a long text is not that of a file, and keeps it beside: to print both would help nobody."""
    if made != wanted.read_bytes():
        path = Path(tempfile.mkdtemp(prefix="other-")) / wanted.name
        path.write_bytes(made)
        raise AssertionError(f"{path} is not {wanted}: compare the two")


class Refusals(unittest.TestCase):
    """An error is one line that names what is wrong and what helps, with status 2 and no output."""

    def refused(self, tool: str, parts: list[str], text: bytes, *words: str) -> None:
        ran = run(tool, *words, text=text)
        message = ran.stderr.decode()
        self.assertEqual((ran.returncode, ran.stdout[:99], message.count("\n")), (2, b"", 1), message)
        for part in parts:
            self.assertIn(part, message)
