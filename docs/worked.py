#!/usr/bin/env python3
"""worked.py: writes the table of worked laws into docs/PROMISES.md, out of the public laws of the crates."""

import os
import re
from typing import Dict, List

HERE = os.path.dirname(os.path.realpath(__file__))
BEGIN, END = "<!-- worked -->", "<!-- end of worked -->"


def laws_of(crate: str) -> List[str]:
    """The public worked laws of a crate, in the order of its files and lines."""
    folder = f"{HERE}/../crates/{crate}/src"
    laws: List[str] = []
    for name in sorted(os.listdir(folder)):
        if name.endswith(".rt"):
            with open(f"{folder}/{name}", encoding="utf-8") as it:
                laws += re.findall(r"^pub fn (worked_\w+)", it.read(), re.MULTILINE)
    return laws


def table_of(crates: Dict[str, List[str]]) -> str:
    """A line for each crate that has worked laws."""
    rows = ["| Crate | Laws |", "|---|---|"]
    rows += [f"| `{crate}` | {', '.join(f'`{law}`' for law in laws)} |" for crate, laws in crates.items() if laws]
    return "\n".join(rows)


def main() -> None:
    """Puts the table between its two marks."""
    crates = {crate: laws_of(crate) for crate in sorted(os.listdir(f"{HERE}/../crates"))}
    with open(f"{HERE}/PROMISES.md", encoding="utf-8") as it:
        before, _, rest = it.read().partition(BEGIN)
    after = rest.partition(END)[2]
    with open(f"{HERE}/PROMISES.md", "w", encoding="utf-8") as it:
        it.write(f"{before}{BEGIN}\n{table_of(crates)}\n{END}{after}")


if __name__ == "__main__":
    main()
