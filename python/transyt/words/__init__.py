"""The words of `./plan`: each is a module of this folder, found by name (`from-sumo` is from_sumo), with

    def add_arguments(parser: argparse.ArgumentParser) -> None
    def run(args: argparse.Namespace) -> int      # the exit number

`args.program` is always there. A word raises `Fault` for what can't be done: its sentence goes to standard error, and
the exit number is 2; 130 after Ctrl-C.
"""

# Each word, and what it is for; a word whose module isn't there isn't shown.
WORDS = {
    "deck": "count sheets into a deck",
    "best": "climb on a deck as far as it pays",
    "day": "a plan for each period of the sheets, filed",
    "stress": "a plan at more and less traffic",
    "file": "file a plan with its report, certificate and page",
    "check": "check a filed plan",
    "picture": "a picture of a plan",
    "page": "a page of a plan",
    "board": "a plan to be moved by hand, in a browser",
    "compare": "two plans link by link",
    "sumo": "a plan driven in SUMO",
    "from-sumo": "a network of SUMO into count sheets",
}
