"""Random scripts with several schemes, commits and metrics, for tests of what tools say of schemes."""
from __future__ import annotations

import random

PAGE = 4096
SLOTS = (1, 2, 5)


def random_script(seed: int, first: str) -> str:
    """A script over two targets with two ranges each, which has this scheme and some random ones."""
    source = random.Random(seed)
    most = source.randrange(8, 30)
    targets = [(0x10000, source.randrange(20, 90)), (0x400000, source.randrange(10, 40))]
    lines = [f"damon script {source.choice([1, 2])}", f"seed {source.randrange(1000)}", f"unit {source.choice([1, 1, 2])}",
             f"cap {most}", f"attrs 4 {most} {source.randrange(2, 12)}", *(f"target {base:#x} {pages}" for base, pages in targets)]
    for target, (base, pages) in enumerate(targets):
        middle, end = base + pages // 2 * PAGE, base + pages * PAGE
        lines += [f"range {target} {base:#x} {middle:#x} {source.randrange(3)}", f"range {target} {middle:#x} {end:#x} {source.randrange(3)}"]
    lines += [first, *(random_scheme(source, slot) for slot in SLOTS), "begin"]
    hot = [(target, source.randrange(pages)) for target, (_, pages) in enumerate(targets) for _ in range(4)]
    for _ in range(source.randrange(40, 120)):
        if source.random() < 0.05:
            lines += random_commit(source, most)
        lines.append("arm")
        for target, page in hot:
            base, pages = targets[target]
            if source.random() < 0.8:
                lines.append(f"sweep {target} {base + page * PAGE:#x} {base + min(pages, page + 6) * PAGE:#x}")
        lines.append("finish")
        if source.random() < 0.1:
            target = source.randrange(2)
            hot[source.randrange(len(hot))] = (target, source.randrange(targets[target][1]))
    return "\n".join([*lines, "show", "end", ""])


def random_commit(source: random.Random, most: int) -> list[str]:
    lines = ["commit"]
    if source.random() < 0.3:
        lines.append(f"attrs 4 {most} {source.randrange(2, 12)}")
    if source.random() < 0.5:
        lines.append(random_scheme(source, source.choice(SLOTS)))
    if source.random() < 0.5:
        lines.append(f"metric {source.randrange(150, 550)}")
    return [*lines, "apply"]


def random_scheme(source: random.Random, slot: int) -> str:
    parts = [f"scheme {slot} {source.choice(['pageout', 'cold', 'lru_prio', 'stat'])}"]
    for chance, part in (
        (0.3, f"size={source.randrange(1, 4)},{source.randrange(4, 40)}"),
        (0.5, f"count=0,{source.randrange(3)}"),
        (0.5, f"age={source.randrange(4)},{source.choice([9, 4294967295])}"),
        (0.7, f"quota={PAGE * source.randrange(30)},{source.randrange(1, 40)}"),
        (0.6, f"weights={source.randrange(3)},{source.randrange(3)},{source.randrange(4)}"),
        (0.5, "prefer=cold"),
        (0.2, "marks=500,400,200"),
    ):
        if source.random() < chance:
            parts.append(part)
    for _ in range(source.randrange(3) if source.random() < 0.5 else 0):
        kind = source.choice(["addr", "target", "class"])
        value = f"{0x10000 + PAGE * source.randrange(40):#x}-{0x10000 + PAGE * source.randrange(41, 90):#x}"
        answer = source.choice(["allow", "reject"])
        parts.append(f"filter={answer}:{source.choice(['', 'not-'])}{kind}:{value if kind == 'addr' else source.randrange(3)}")
    return " ".join(parts)
