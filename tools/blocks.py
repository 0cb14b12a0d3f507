"""Parts of pages that scripts write: what stands between `<!-- NAME -->` and `<!-- end -->`."""
import re
import sys
from typing import Dict, List


def with_block(page: str, name: str, text: str) -> str:
    """The page with another text between its marks of this name."""
    marked = re.compile(rf"(<!-- {name} -->\n).*?(<!-- end -->)", re.S)
    if not marked.search(page):
        sys.exit(f"the page has no place <!-- {name} -->")
    return marked.sub(lambda found: found[1] + text + found[2], page)


def with_blocks(page: str, blocks: Dict[str, List[str]]) -> str:
    """The page with other rows between its marks of these names."""
    for name, rows in blocks.items():
        page = with_block(page, name, "\n".join(["", *rows, "", ""]))
    return page
