#!/usr/bin/env python3
"""Checks lines of `damon json` against a JSON Schema, by Debian's python3-jsonschema.

    /usr/bin/python3 tests/report_schema.py SCHEMA < LINES

Each line that the schema refuses is named with the reason; the exit status is 1 where there is one.
"""
import json
import sys
from typing import Any, Iterable, Iterator, List, Tuple

from jsonschema import Draft202012Validator
from jsonschema.exceptions import best_match

NO_SUCH_KIND = "no line has this kind"


def main(words: List[str]) -> int:
    with open(words[0], encoding="ascii") as stream:
        schema = json.load(stream)
    Draft202012Validator.check_schema(schema)
    status = 0
    for number, fault in faults(schema, sys.stdin):
        print(f"{number}: {fault}")
        status = 1
    return status


def faults(schema: Any, lines: Iterable[str]) -> Iterator[Tuple[int, str]]:
    """The number of each refused line, counted from 1, and why it is refused."""
    whole = Draft202012Validator(schema)
    for number, line in enumerate(lines, 1):
        members = json.loads(line)
        if not whole.is_valid(members):
            yield number, reason(schema, members)


def reason(schema: Any, members: Any) -> str:
    """What is wrong with a line, by the part of the schema for its kind."""
    kind = members.get("kind") if isinstance(members, dict) else None
    if kind not in [part["$ref"].rsplit("/", 1)[1] for part in schema["oneOf"]]:
        return NO_SUCH_KIND
    part = Draft202012Validator({"$ref": f"#/$defs/{kind}", "$defs": schema["$defs"]})
    fault = best_match(part.iter_errors(members))
    return f"{fault.json_path}: {fault.message[:200]}"


if __name__ == "__main__":
    sys.exit(main(sys.argv[1:]))
