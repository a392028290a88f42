"""tests.py STATUS LINE: the tests of what isn't Rattle, after rt ci ended with STATUS and with the last line LINE.

Each group is left out, with a word on it, where what it needs isn't there. Nothing is built here: the program is the
one that rt ci has just built. The last line is 'N passed, M failed' of rt ci and of these together, and the exit number
is the worse of the two."""
import glob
import os
import re
import subprocess
import sys
from typing import Callable, List, NamedTuple, Optional

ROOT = os.path.dirname(os.path.dirname(os.path.abspath(__file__)))
PROGRAM = "crates/transyt_cli/out/transyt_cli"
SECONDS = 900  # that a group has


class Count(NamedTuple):
    """How many tests passed, and how many failed."""

    passed: int
    failed: int


def say(text: str) -> None:
    """A line of the gate's own."""
    print(f".ci: {text}", flush=True)


def told(line: str) -> Optional[Count]:
    """The numbers of a line 'N passed, M failed'."""
    found = re.match(r"(\d+) passed, (\d+) failed", line)
    return Count(int(found[1]), int(found[2])) if found else None


def unit_tests(text: str) -> Optional[Count]:
    """The numbers of what unittest writes at its end; tests that it skipped are neither."""
    ran = re.findall(r"^Ran (\d+) tests? in ", text, re.M)
    if not ran:
        return None
    of = {kind: int(number) for kind, number in re.findall(r"(\w+)=(\d+)", text.strip().rsplit("\n", 1)[-1])}
    failed = of.get("failures", 0) + of.get("errors", 0) + of.get("successes", 0)
    return Count(max(0, int(ran[-1]) - failed - of.get("skipped", 0)), failed)


def group(name: str, words: List[str], counted: Callable[[str], Optional[Count]]) -> Count:
    """Runs a group of tests, shows what it writes, and counts it; a bad end, or no number, is a failure."""
    say(name)
    # the package of python/ is found without being installed, and its program is the one that the gate built
    env = {**os.environ, "PYTHONPATH": f"{ROOT}/python", "TRANSYT": ""}
    try:
        ran = subprocess.run([sys.executable, "-B", *words], timeout=SECONDS, text=True, errors="replace", cwd=ROOT,
                             env=env, stdin=subprocess.DEVNULL, stdout=subprocess.PIPE, stderr=subprocess.STDOUT,
                             check=False)
        text, status = ran.stdout, ran.returncode
    except subprocess.TimeoutExpired as error:
        text, status = (error.stdout or b"").decode(errors="replace") + "\nit took too long", 1
    print(text, end="" if text.endswith("\n") else "\n")
    found = counted(text)
    return Count(found.passed, max(found.failed, int(status != 0))) if found else Count(0, 1)


def unit_group(folder: str) -> Count:
    """The unit tests of a folder, if it has any."""
    if not glob.glob(f"{ROOT}/{folder}/test_*.py"):
        say(f"{folder} has no tests")
        return Count(0, 0)
    return group(f"tests of {folder}", ["-m", "unittest", "discover", "-s", folder, "-p", "test_*.py"], unit_tests)


def pieces() -> List[str]:
    """The scripts that try a piece of ./transyt each; `common` has what they share."""
    return sorted(name for name in os.listdir(f"{ROOT}/.ci/script") if name != "common")


def script() -> Count:
    """The script ./transyt, tried as a user would: a test for each piece, which names each difference."""
    say("the script ./transyt")
    passed = 0
    for name in pieces():
        try:
            ran = subprocess.run(["sh", f".ci/script/{name}"], cwd=ROOT, stdin=subprocess.DEVNULL, timeout=SECONDS,
                                 check=False)
            passed += int(ran.returncode == 0)
        except subprocess.TimeoutExpired:
            print(f"{name}: it took too long")
    return Count(passed, len(pieces()) - passed)


def compared() -> Count:
    """The examples and some random decks: what the built program writes, against what examples/check works out."""
    if not os.access(f"{ROOT}/{PROGRAM}", os.X_OK):
        say(f"{PROGRAM} is not built: it is not compared with examples/check")
        return Count(0, 0)
    words = ["examples/check/all.py", PROGRAM, "10", "1"]
    return group("the program against examples/check", words, lambda text: told(text.strip().rsplit("\n", 1)[-1]))


def main(status: str, line: str) -> int:
    """Runs all groups, writes the last line, and returns the exit number."""
    counts = [told(line) or Count(0, 1)]
    for folder in (".ci", "examples/check", "python/tests"):
        counts.append(unit_group(folder))
    counts += [script(), compared()]
    passed, failed = map(sum, zip(*counts))
    print(f"{passed} passed, {failed} failed")
    return max(int(status), int(failed > 0))


if __name__ == "__main__":
    sys.exit(main(*sys.argv[1:]))
