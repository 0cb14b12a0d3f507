"""Pages, addresses and the limits of scripts that several packages need; `docs/FORMATS.md` has the limits."""
from __future__ import annotations

PAGE_BITS = 12
PAGE = 1 << PAGE_BITS
"""The bytes of a page."""
USER_END = 1 << 47
"""The addresses of a traced program are below this one."""
SPACE_END = 1 << 63
"""Where every target of a script has ended."""
MOST_TARGETS = 64
MOST_PAGES = 1 << 20
"""The most pages of a target, and of all targets together."""
