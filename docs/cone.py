"""cone.py [CLAUSE]: the definitions on which a clause rests, as the table of docs/THEOREM.md.

CLAUSE is headline (where none is named) or climbs of the top call, or program, the headline of the function that main
calls. From the words that the clause names it goes to the words that their definitions in crates/*/specs name, and so
on. The crates stand in the order of crates.txt, each after those on which it stands. Lines are those of definitions,
without comments, blank lines and imports. Structs and enums that are declared in src/ are listed at the end, and words
of std are counted. `cone.py names [CLAUSE]` tells the names of the definitions and of the words of std too.
"""

import os
import re
import sys
from typing import Dict, List, Set, Tuple

HERE = os.path.dirname(os.path.abspath(__file__))
CRATES = os.path.join(HERE, "..", "crates")
CLAUSES = {"headline": ("top.rt", ["IsRun", "word_of", "Rose", "report", "status"]),
           "climbs": ("top.rt", ["ClimbDescends", "climb_of", "run_state"]),
           "program": ("given.rt", ["OverHeadline", "after_name"])}
Definition = Tuple[str, int, List[str]]  # the name of the definition, its lines, its words
Module = Tuple[Dict[str, str], Dict[str, Definition]]  # imports, each with its module; definitions by each name
Found = Dict[str, Dict[str, Definition]]  # by module and name


def lines_of(path: str) -> List[str]:
    """The lines of a file."""
    with open(path, encoding="utf-8") as file:
        return file.read().split("\n")


def path_of(module: str) -> str:
    """The file of a module of specs."""
    crate, _, *names = module.split(".")
    return os.path.join(CRATES, crate, "specs", *names) + ".antt"


def imported(lines: List[str]) -> Dict[str, str]:
    """For each name that is imported, the module that it is from."""
    uses = (re.match(r"(?:pub |ghost )?use Rattle\.([\w.]+)\.\{(.*)\};?$", line) for line in lines)
    return {item.strip(): use[1] for use in uses if use for item in use[2].split(",")}


def read(module: str) -> Module:
    """The imports of a module, and for each name of it the definition's name, number of lines and words."""
    lines = lines_of(path_of(module))
    definitions: Dict[str, Definition] = {}
    kind = name = ""
    for line in lines:
        start = re.match(r"(?:pub )?(abbrev|unfoldable|data|record) (?:pub )?(\w+)", line)
        constructor = re.match(r"  (\w+) :", line)
        if start:
            kind, name = start[1], start[2]
        elif not line or line.startswith(("--", "use ", "pub use ")):
            name = ""
        if not name:
            continue
        lines_so_far, words = definitions[name][1:] if name in definitions else (0, [])
        definitions[name] = name, lines_so_far + 1, words + re.findall(r"[A-Za-z_]\w*", line.split(" -- ")[0])
        if kind == "data" and constructor:
            definitions[constructor[1]] = name, 0, [name]
    return imported(lines), definitions


def cone(clause: str) -> Tuple[Found, Set[str], Set[str]]:
    """The definitions, by module, the structs and enums, and the words of std."""
    source, names = CLAUSES[clause]
    top = imported(lines_of(os.path.join(CRATES, "transyt", "src", source)))
    todo = [(top[name], name) for name in names]
    modules: Dict[str, Module] = {}
    found: Found = {}
    types: Set[str] = set()
    library: Set[str] = set()
    while todo:
        module, name = todo.pop()
        if module.startswith("std."):
            library.add(name)
            continue
        if ".declared." in module:
            owner = module.split(".")[-2] if "TheVariants" in module else name
            types.add(f"{module.split('.specs.')[0]}::{owner}")
            continue
        if module not in modules:
            modules[module] = read(module)
        uses, definitions = modules[module]
        if name not in definitions:
            todo.append((uses[name], name))
        elif name not in found.setdefault(module, {}):
            found[module][name] = definitions[name]
            todo += [(module if word in definitions else uses[word], word) for word in set(definitions[name][2])
                     if word in definitions or word in uses]
    return found, types, library


def count(found: Found, module: str) -> int:
    """The lines of a module's definitions, each counted once."""
    return sum(lines for name, (owner, lines, _) in found[module].items() if owner == name)


def main() -> None:
    """Writes the table."""
    words = [word for word in sys.argv[1:] if word != "names"]
    found, types, library = cone(words[0] if words else "headline")
    order = [line.split()[0].rstrip(":") for line in lines_of(os.path.join(HERE, "..", "crates.txt"))
             if line[:1].isalpha()]
    print("| Crate | Files of `specs/`, and the lines of each | Lines |\n|---|---|---|")
    for crate in order:
        mine = sorted(module for module in found if module.startswith(crate + "."))
        if mine:
            files = ", ".join(f"`{module.split('.specs.')[1]}` {count(found, module)}" for module in mine)
            print(f"| `{crate}` | {files} | {sum(count(found, module) for module in mine)} |")
        for module in mine if "names" in sys.argv else []:
            print(f"    {module}: {', '.join(found[module])}")
    definitions = sum(owner == name for module in found for name, (owner, _, _) in found[module].items())
    print(f"\n{len(found)} files, {definitions} definitions, {sum(count(found, module) for module in found)} lines; "
          f"{len(library)} words of std.")
    print("Structs and enums: " + ", ".join(f"`{name}`" for name in sorted(types)) + ".")
    if "names" in sys.argv:
        print("Words of std: " + ", ".join(f"`{name}`" for name in sorted(library)) + ".")


if __name__ == "__main__":
    main()
