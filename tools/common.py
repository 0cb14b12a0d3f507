"""What all tools share: their options, their files, and how they end."""
from __future__ import annotations

import argparse
import gzip
import io
import lzma
import os
import signal
import sys
import zlib
from contextlib import contextmanager
from pathlib import Path
from typing import BinaryIO, Callable, Iterator, TextIO, cast

STANDARD_INPUT = "-"
USAGE_STATUS = 2
CLOSED_PIPE_STATUS = 128 + signal.SIGPIPE
"""What a shell says of a program that was ended by a closed pipe."""
INTERRUPTED_STATUS = 128 + signal.SIGINT


class UsageError(Exception):
    """An option or a file that cannot be used. Its text is one line for the user."""


def parser(tool: str, description: str, example: str) -> argparse.ArgumentParser:
    """The options of a tool, with an example at the end of its help."""
    return argparse.ArgumentParser(
        prog=tool, description=description, epilog=example, formatter_class=argparse.RawDescriptionHelpFormatter
    )


@contextmanager
def opened(path: str) -> Iterator[BinaryIO]:
    """The bytes of a file; .gz and .xz are unpacked, and `-` is standard input.

    What goes wrong while it is read is a UsageError that names the file.
    """
    try:
        if path == STANDARD_INPUT:
            yield sys.stdin.buffer
        else:
            with unpacked(path) as stream:
                yield stream
    except BrokenPipeError:
        raise
    except OSError as error:
        raise UsageError(f"{path}: {error.strerror or error}") from None
    except (EOFError, lzma.LZMAError, zlib.error) as error:
        raise UsageError(f"{path}: {error}") from None


def unpacked(path: str) -> BinaryIO:
    if path.endswith(".xz"):
        return cast(BinaryIO, lzma.open(path, "rb"))
    if path.endswith(".gz"):
        return cast(BinaryIO, gzip.open(path, "rb"))
    return open(path, "rb")


@contextmanager
def opened_text(path: str) -> Iterator[TextIO]:
    """The same as text of ASCII characters, as all texts of damon are."""
    with opened(path) as stream:
        text = io.TextIOWrapper(stream, encoding="ascii")
        try:
            yield text
        except UnicodeDecodeError:
            raise UsageError(f"{path}: a byte that is not ASCII") from None
        finally:
            # Standard input stays open.
            text.detach()


@contextmanager
def whole_file(path: Path) -> Iterator[BinaryIO]:
    """A file to write. It is there as a whole or not at all."""
    unready = path.with_name(f".{path.name}.{os.getpid()}")
    try:
        with open(unready, "wb") as stream:
            yield stream
        os.replace(unready, path)
    finally:
        unready.unlink(missing_ok=True)


def run(tool: str, work: Callable[[], int | None]) -> None:
    """Runs a tool to its end, with the status that `work` gives, or 0.

    A UsageError becomes one line on standard error, with status 2. Whoever reads the output may close
    it early, as `head` does; then the tool ends without a word, and so it does where it is interrupted.
    """
    try:
        status = work()
        sys.stdout.flush()
    except UsageError as error:
        print(f"{tool}: {error}", file=sys.stderr)
        sys.exit(USAGE_STATUS)
    except BrokenPipeError:
        # The interpreter writes what is left when it ends, so it needs a place for it.
        os.dup2(os.open(os.devnull, os.O_WRONLY), sys.stdout.fileno())
        sys.exit(CLOSED_PIPE_STATUS)
    except KeyboardInterrupt:
        sys.exit(INTERRUPTED_STATUS)
    except OSError as error:
        print(f"{tool}: {error.filename or 'writing failed'}: {error.strerror or error}", file=sys.stderr)
        sys.exit(USAGE_STATUS)
    sys.exit(status or 0)
