"""How far a build is, told on standard error."""
import shutil
import sys
import time
from typing import Dict, List


def minutes(seconds: float) -> str:
    whole = int(seconds)
    return f"{whole // 60}:{whole % 60:02} min"


class Progress:
    """Says how far a build is: by the share of the processor time that its crates are expected to take."""

    def __init__(self, program: str, seconds: Dict[str, float], expected: float) -> None:
        self.program, self.seconds, self.expected = program, seconds, expected
        self.done, self.share, self.begun = 0, 0.0, time.monotonic()
        self.rewrites = sys.stderr.isatty()

    def begin(self) -> None:
        """Says what is built, about how long it takes, and what can be done in the meantime."""
        if len(self.seconds) > 1:
            self._line(
                f"building {self.program}: {len(self.seconds)} crates are proved first, in about {self.expected / 60:.0f} minutes; "
                f"until then a script can be tried unproved: cd crates/{self.program} && rt try -- replay < SCRIPT"
            )

    def under_way(self, names: List[str]) -> None:
        if self.rewrites:
            said = f"{self._share()}: proving {', '.join(names)}"
            width = shutil.get_terminal_size().columns - 1
            print(f"\r\033[K{said[:width]}", end="", file=sys.stderr, flush=True)

    def ended(self, name: str, seconds: float) -> None:
        self.done += 1
        total = sum(self.seconds.values())
        self.share += self.seconds.get(name, 0.0) / total if total else 0.0
        if not self.rewrites:
            self._line(f"crate {self.done} of {len(self.seconds)}: {name}, {seconds:.0f} s ({self._share()})")

    def close(self) -> None:
        if self.rewrites:
            print("\r\033[K", end="", file=sys.stderr, flush=True)

    def _share(self) -> str:
        """The share that is done, and the time since the start beside the one that was expected."""
        return f"{self.share:.0%} after {minutes(time.monotonic() - self.begun)} of about {self.expected / 60:.0f}"

    def _line(self, said: str) -> None:
        print(said, file=sys.stderr, flush=True)
