#!/usr/bin/env python3
"""Makes the input of the program `grammar_cases`, and the output that is wanted of it, from
`tests/cases/bad-script.jsonl` and `tests/cases/version-2.jsonl`.

    tests/make_grammar_cases.py

Run it after these cases have changed; `tests/test_grammar_cases.py` fails until that is done.
"""
import json
import string
from pathlib import Path
from typing import Dict, NamedTuple
from urllib.parse import quote

TOP = Path(__file__).resolve().parent.parent
CASES = [TOP / "tests/cases/bad-script.jsonl", TOP / "tests/cases/version-2.jsonl"]
CRATE = TOP / "crates/grammar_cases"
KEPT = (string.ascii_letters + string.digits + string.punctuation + " ").replace("%", "")


class Files(NamedTuple):
    """What the program reads, and what it is to print."""

    stdin: str
    stdout: str


def made() -> Files:
    texts, outputs = [], []
    for line in (line for cases in CASES for line in cases.read_text().splitlines()):
        case = json.loads(line)
        text = quote(case["input"].encode("latin-1"), safe=KEPT)
        texts.append(f"{case['name']} {text}\n")
        outputs.append(f"{case['name']} {output_of(case)}\n")
    return Files("".join(texts), "".join(outputs))


def output_of(case: Dict[str, str]) -> str:
    """Says what a text is: for a script the finished program writes nothing to standard error."""
    return case["stderr"].rstrip("\n") or "is a script"


def main() -> None:
    for name, text in made()._asdict().items():
        (CRATE / name).write_text(text)


if __name__ == "__main__":
    main()
