#!/usr/bin/env python3
"""costs.py LOG: writes what each crate takes to prove into the last column of the crates in docs/ARCHITECTURE.md.

LOG is what a build says on standard error, from nothing: touch crates.txt; rm -rf crates/*/out; ./transyt run 2> LOG.
"""

import os
import re
import sys
from typing import Dict

PAGE = os.path.join(os.path.dirname(os.path.realpath(__file__)), "ARCHITECTURE.md")


def costs_of(log: str) -> Dict[str, str]:
    """The seconds of each crate of a log."""
    return dict(re.findall(r"^transyt: \d+ of \d+ crates: (\w+), (\d+) s", log, re.MULTILINE))


def with_costs(page: str, costs: Dict[str, str]) -> str:
    """The page with these seconds at the ends of the crates' rows; a crate that the log leaves out keeps its own."""

    def row(found: "re.Match[str]") -> str:
        return found[1] + costs.get(found[2], found[3]) + " |"

    return re.sub(r"^(\| `(transyt\w*)` \|.*\| )(\d+) \|$", row, page, flags=re.MULTILINE)


def main() -> int:
    """Puts the seconds of a log into the page."""
    if len(sys.argv) != 2:
        print("usage: costs.py LOG", file=sys.stderr)
        return 2
    with open(sys.argv[1], encoding="utf-8") as it:
        costs = costs_of(it.read())
    if not costs:
        print(f"{sys.argv[1]} names no crate that was proved", file=sys.stderr)
        return 1
    with open(PAGE, encoding="utf-8") as it:
        page = it.read()
    with open(PAGE, "w", encoding="utf-8") as it:
        it.write(with_costs(page, costs))
    return 0


if __name__ == "__main__":
    sys.exit(main())
