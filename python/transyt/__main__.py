"""The command `./plan WORD ..`: python3 -m transyt."""

import argparse
import importlib
import importlib.util
import os
import sys
from types import ModuleType
from typing import List, Optional

from .faults import Fault
from .program import BUILT, SCRIPT, find_program
from .sheets.faults import Faults
from .terminal import tell
from .words import WORDS


def module_of(word: str) -> Optional[ModuleType]:
    """The module of a word; None where it isn't there."""
    name = f"transyt.words.{word.replace('-', '_')}"
    return importlib.import_module(name) if importlib.util.find_spec(name) else None


def parser_of(word: str, module: ModuleType) -> argparse.ArgumentParser:
    """The parser of a word's arguments."""
    parser = argparse.ArgumentParser(prog=f"plan {word}", description=(module.__doc__ or "").strip(),
                                     formatter_class=argparse.RawDescriptionHelpFormatter)
    module.add_arguments(parser)
    parser.add_argument("--program", metavar="FILE", help="the program transyt, built, or the script that builds it")
    return parser


def tell_of_build(program: Optional[str]) -> None:
    """Tells that the program is built first, where it isn't yet."""
    if find_program(program) == SCRIPT and not os.access(BUILT, os.X_OK):
        tell("plan: the program isn't built yet, and is proved and built now: README.md says how long that takes")


def usage() -> str:
    """What the words are for."""
    words = "\n".join(f"  {word:<10} {what}" for word, what in WORDS.items() if module_of(word))
    return f"usage: plan WORD ..     plan WORD --help says more\n\n{words}"


def main(words: List[str]) -> int:
    """Runs a word, and returns its exit number."""
    if words[:1] in ([], ["-h"], ["--help"]):
        print(usage(), file=sys.stderr if not words else sys.stdout)
        return 0 if words else 2
    module = module_of(words[0]) if words[0] in WORDS else None
    if module is None:
        tell(f"plan: there is no word {words[0]}")
        print(usage(), file=sys.stderr)
        return 2
    try:
        args = parser_of(words[0], module).parse_args(words[1:])
        tell_of_build(args.program)
        return int(module.run(args))
    except Fault as fault:
        for sentence in fault.sentences if isinstance(fault, Faults) else [str(fault)]:
            tell(f"plan {words[0]}: {sentence}")
        return 2
    except BrokenPipeError:
        return 2
    except OSError as error:
        tell(f"plan {words[0]}: {error.filename or ''}: {error.strerror}")
        return 2
    except KeyboardInterrupt:
        tell(f"plan {words[0]}: stopped")
        return 130


def command() -> None:
    """The command `plan` of an installed package."""
    sys.exit(main(sys.argv[1:]))


if __name__ == "__main__":
    command()
