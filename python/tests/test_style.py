"""The Python of the repository as its style says: short functions and files, hints, docstrings, nothing unused.

mypy --strict is asked where it is installed; syntax is that of Python 3.9 in any case.
"""

import ast
import glob
import os
import re
import shutil
import subprocess
import sys
import unittest
from typing import Iterable, Iterator, List, Set, Tuple

from support import HERE, ROOT

PACKAGE = os.path.dirname(HERE)
MOST_LETTERS, MOST_LINES, MOST_OF_A_FUNCTION = 120, 400, 40
FILES = sorted(path for pattern in ("python/transyt/**/*.py", "python/tests/*.py", "docs/*.py", ".ci/*.py",
                                    "examples/sumo/*.py")
               for path in glob.glob(os.path.join(ROOT, pattern), recursive=True))


def functions_of(tree: ast.Module) -> Iterator[ast.FunctionDef]:
    """All functions, within classes and within others too."""
    return (node for node in ast.walk(tree) if isinstance(node, ast.FunctionDef))


def unused_of(tree: ast.Module, text: str) -> Set[str]:
    """Names that are imported and don't stand anywhere else."""
    names: Set[str] = set()
    for node in ast.walk(tree):
        if isinstance(node, ast.Import):
            names.update((alias.asname or alias.name).split(".")[0] for alias in node.names)
        elif isinstance(node, ast.ImportFrom):
            names.update(alias.asname or alias.name for alias in node.names)
    return {name for name in names if len(re.findall(rf"\b{name}\b", text)) < 2}


def faults_of(path: str) -> Iterable[Tuple[int, str]]:
    """What is against the style in a file: line and sentence."""
    with open(path, encoding="utf-8") as file:
        text = file.read()
    lines, tree = text.split("\n"), ast.parse(text, path, feature_version=(3, 9))
    yield from ((place, f"{len(line)} letters") for place, line in enumerate(lines, 1) if len(line) > MOST_LETTERS)
    if len(lines) > MOST_LINES:
        yield 1, f"{len(lines)} lines"
    if not ast.get_docstring(tree):
        yield 1, "no docstring"
    yield from ((1, f"{name} isn't used") for name in unused_of(tree, text) - {"support"})
    for function in functions_of(tree):
        length = (function.end_lineno or 0) - function.lineno + 1
        if length >= MOST_OF_A_FUNCTION:
            yield function.lineno, f"{function.name} has {length} lines"
        hinted = [*function.args.args, *function.args.kwonlyargs]
        if any(one.annotation is None and one.arg not in ("self", "cls") for one in hinted) or function.returns is None:
            yield function.lineno, f"{function.name} has an argument or an answer without a hint"


class Style(unittest.TestCase):
    """Every file of the package, its tests, docs, .ci and examples/sumo."""

    def test_each_file(self) -> None:
        """Lengths, docstrings, hints, imports."""
        self.assertGreater(len(FILES), 60)
        found: List[str] = [f"{os.path.relpath(path, ROOT)}:{line}: {what}" for path in FILES
                            for line, what in faults_of(path)]
        self.assertEqual(found, [])

    def test_no_text_is_cut_by_splitlines(self) -> None:
        """Decks and reports are cut at LF alone; `splitlines` and `split()` cut at more."""
        for path in glob.glob(os.path.join(PACKAGE, "transyt", "**", "*.py"), recursive=True):
            with open(path, encoding="utf-8") as file:
                code = [node for node in ast.walk(ast.parse(file.read())) if isinstance(node, ast.Attribute)]
            self.assertEqual([node.lineno for node in code if node.attr == "splitlines"], [], path)

    @unittest.skipUnless(shutil.which("mypy"), "mypy isn't installed")
    def test_mypy(self) -> None:
        """mypy --strict of the package, docs and .ci."""
        for folder, names in ((PACKAGE, ["transyt"]), (os.path.join(ROOT, "docs"), ["."]),
                              (os.path.join(ROOT, ".ci"), ["."])):
            done = subprocess.run(["mypy", "--strict", "--no-incremental", "--cache-dir", os.devnull, *names],
                                  cwd=folder, env={**os.environ, "MYPYPATH": PACKAGE}, capture_output=True, text=True,
                                  check=False)
            self.assertEqual(done.returncode, 0, done.stdout + done.stderr)

    def test_every_module_compiles(self) -> None:
        """compileall, with nothing written."""
        for path in FILES:
            with open(path, encoding="utf-8") as file:
                compile(file.read(), path, "exec")
        self.assertGreaterEqual(sys.version_info, (3, 9))


if __name__ == "__main__":
    unittest.main()
