"""Runs on the workers of a cluster: dask.distributed does the scheduling, the retries and the lost workers.

The modules, the program and the workloads are sent to workers once, by their hash.
"""
from __future__ import annotations

import hashlib
import importlib
import os
import subprocess
import sys
import tempfile
import zipfile
from contextlib import contextmanager
from pathlib import Path
from typing import Any, Iterator, Sequence

from common import UsageError

from .handing import Answer, Pool
from .runs import Inputs, row_of
from .table import Row

PACKAGES = ("common.py", "units.py", "wording.py", "measuring", "reports", "scripts", "searching", "tracing")
"""What workers need of the tools."""
TOOLS = Path(__file__).resolve().parent.parent
DEBIANS_PYTHON = "/usr/bin/python3"
PACKAGE = "distributed"
RETRIES = 3
SECONDS_TO_CONNECT = 30


class Sent:
    """What workers have: all that runs need."""

    def __init__(self, inputs: Inputs, program: bytes) -> None:
        self.inputs = inputs
        self.program = program
        self.hash = hashlib.sha256(program).hexdigest()


def make(sent: Sent, numbers: Sequence[int]) -> list[Row]:
    """The rows of a chunk, on a worker."""
    inputs = sent.inputs._replace(program=placed(sent))
    return [row_of(inputs, number) for number in numbers]


def placed(sent: Sent) -> str:
    """The path of the program on this worker, where it is written once."""
    folder = Path(distributed().get_worker().local_directory)
    path = folder / f"damon-{sent.hash}"
    if not path.exists():
        handle, unready = tempfile.mkstemp(dir=folder)
        with os.fdopen(handle, "wb") as stream:
            stream.write(sent.program)
        os.chmod(unready, 0o700)
        os.replace(unready, path)
    return str(path)


def distributed() -> Any:
    """The module dask.distributed. Raises UsageError that says which interpreter has it."""
    try:
        return importlib.import_module(PACKAGE)
    except ImportError:
        pass
    if sys.executable != DEBIANS_PYTHON and has_package(DEBIANS_PYTHON):
        raise UsageError(f"--cluster needs dask.distributed, which {sys.executable} has not: "
                         f"run {DEBIANS_PYTHON} tools/{Path(sys.argv[0]).name} ..")
    raise UsageError("--cluster needs dask.distributed: on Debian `apt-get install python3-distributed` installs it "
                     f"for {DEBIANS_PYTHON}")


def has_package(interpreter: str) -> bool:
    try:
        return subprocess.run([interpreter, "-c", f"import {PACKAGE}"], capture_output=True).returncode == 0
    except OSError:
        return False


def archive(folder: Path) -> Path:
    """The modules of the tools as one file, with its hash in its name."""
    files = sorted(path for name in PACKAGES for path in [TOOLS / name, *(TOOLS / name).glob("*.py")] if path.is_file())
    whole = hashlib.sha256(b"".join(path.read_bytes() for path in files)).hexdigest()[:16]
    result = folder / f"damon_search_{whole}.zip"
    with zipfile.ZipFile(result, "w") as packed:
        for path in files:
            packed.write(path, path.relative_to(TOOLS))
    return result


@contextmanager
def cluster_pool(inputs: Inputs, address: str) -> Iterator[Pool]:
    """The workers of the scheduler at this address."""
    module = distributed()
    try:
        client = module.Client(address, timeout=SECONDS_TO_CONNECT)
    except (OSError, ValueError) as error:
        raise UsageError(f"--cluster {address}: {error or 'no scheduler answers'}") from None
    with client, tempfile.TemporaryDirectory() as folder:
        if not client.ncores():
            raise UsageError(f"--cluster {address}: the scheduler has no worker")
        client.upload_file(str(archive(Path(folder))))
        sent = client.scatter(Sent(inputs, Path(inputs.program).read_bytes()), broadcast=True, hash=True)

        def submit(numbers: Sequence[int]) -> Answer:
            answer: Answer = client.submit(make, sent, numbers, retries=RETRIES, pure=False)
            return answer

        yield Pool(submit, lambda: max(1, sum(map(int, client.ncores().values()))))
