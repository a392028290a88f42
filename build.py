#!/usr/bin/env python3
"""build.py TOP: proves and builds the program TOP of this repository and all crates that it stands on.

./transyt calls it where a file has changed since the program was built. Crates are proved side by side, each as soon as
those below it are, and first the one above which most is left to prove. `rt lib` can't do that: it holds all crates below
its own, so that several wait for one another.

A library is written with its statements alone, as `rt ci` writes it: a crate above loads what the crate states, and not
how that was proved. The libraries stand in out/statements of each crate, so that they and what `rt check` keeps are apart.
A crate is proved again as a whole where it or a crate below it has changed.

For that it uses modules which the command rt is made of, and which the kit doesn't promise to keep. Where they aren't
there, the crates are built by `rt all check` and `rt run`, which takes some minutes longer.
"""

import fcntl
import hashlib
import importlib.machinery
import importlib.util
import os
import re
import shutil
import signal
import subprocess
import sys
import threading
import time

sys.dont_write_bytecode = True
HERE = os.path.dirname(os.path.realpath(__file__))
# A check takes up to 2 GB.
BYTES_A_CHECK = 2 << 30
# Crates of so many lines get more than one job; a short one spends its time on loading.
LONG = 2000
# Each crate loads those below it, and the program loads all: what that costs beside its lines, in lines.
LOADING, PROGRAM = 600, 2500


def say(text):
    print(f"transyt: {text}", file=sys.stderr, flush=True)


def fail(log):
    """Ends, as the program can't be built, and shows the end of the prover's own words."""
    if os.path.isfile(log):
        with open(log, encoding="utf-8", errors="replace") as it:
            sys.stderr.write("".join(it.readlines()[-40:]))
    say(f"the program could not be built; the whole log is in {log}")
    sys.exit(7)


def stands_on():
    """What each crate of crates.txt stands on."""
    with open(f"{HERE}/crates.txt", encoding="utf-8") as it:
        lines = [line.partition("#")[0] for line in it]
    return {line.split(":")[0].split()[0]: line.split(":")[1].split() for line in lines if ":" in line}


def files_of(crate):
    """The files of a crate that are proved, in order."""
    found = []
    for part in ("src", "specs", "proofs"):
        for folder, _, names in os.walk(f"{HERE}/crates/{crate}/{part}"):
            found += [f"{folder}/{name}" for name in names]
    return sorted(found)


def below(crate, uses, found):
    """Adds to found the crates of this repository that one stands on, and itself last."""
    for other in uses.get(crate, []):
        if other in uses and other not in found:
            below(other, uses, found)
    found.append(crate)
    return found


def sum_of(top):
    """One sum of all that the program is made from."""
    uses, made = stands_on(), hashlib.sha256()
    for crate in below(top, uses, []):
        made.update(repr((crate, uses[crate])).encode())
        for file in files_of(crate):
            with open(file, "rb") as it:
                made.update(repr((os.path.relpath(file, HERE), it.read())).encode())
    return made.hexdigest()


def processors():
    """How many checks can run side by side: one a processor, as far as the memory that is free allows."""
    count = len(os.sched_getaffinity(0))
    try:
        with open("/proc/meminfo", encoding="ascii") as it:
            free = int(re.search(r"^MemAvailable: +(\d+) kB", it.read(), re.M)[1]) << 10
    except (OSError, TypeError):
        return count
    return max(1, min(count, free // BYTES_A_CHECK))


def load_rt():
    """The library of the rt that is on the path, as a module; none where it isn't made as expected."""
    try:
        loader = importlib.machinery.SourceFileLoader("rt", os.path.realpath(shutil.which("rt")))
        made = importlib.util.module_from_spec(importlib.util.spec_from_loader("rt", loader))
        sys.modules["rt"] = made
        loader.exec_module(made)
        lib = made.rtlib
        lib.guarded, lib.lock, lib.stop_on_links, lib.KIT, lib.RATTLE
        lib.Crate.below, lib.Crate.words, lib.Crate.stamp, lib.Crate.call
        return lib if "--statements" in lib.help_of("build") else None
    except Exception:
        return None


def text_of(file):
    """What a file has; none where there is none."""
    if not os.path.isfile(file):
        return None
    with open(file, encoding="utf-8") as it:
        return it.read()


class Crates:
    """A program's crate and the libraries below it, with what is done of them."""

    def __init__(self, rt, top, jobs, logs):
        self.rt, self.jobs, self.logs = rt, jobs, logs
        self.program = rt.Crate(f"{HERE}/crates/{top}", HERE, {})
        self.all = self.program.below()
        self.held = rt.lock(self.all)
        for it in self.all:
            rt.stop_on_links(it.folder)
            it.rlib = f"{it.folder}/out/statements/{it.name}.rlib"
        self.lines = {it: sum(open(file, "rb").read().count(b"\n") for file in files_of(it.name)) for it in self.all}
        self.left = {it: self.lines[it] + LOADING for it in self.all}
        self.chain = {}
        for it in reversed(self.all):
            above = [self.chain[other] for other in self.all if it in other.deps]
            self.chain[it] = self.left[it] + max(above, default=PROGRAM)
        self.turn, self.begun = threading.Condition(), time.time()
        self.done, self.going, self.failed, self.spent = set(), {}, [], []

    def share(self):
        """A processor's share of what is left to prove, in lines."""
        return (sum(self.left[it] for it in self.all if it not in self.done) + PROGRAM) / self.jobs

    def minutes_left(self):
        """Roughly how many minutes are left, by what the crates took that are done."""
        pace = sum(seconds for _, seconds in self.spent) / sum(lines for lines, _ in self.spent)
        longest = max([self.chain[it] for it in self.all if it not in self.done], default=PROGRAM)
        return round(max(self.share(), longest) * pace / 60) + 1

    def tell(self, crate, seconds):
        """Says that a crate is done, and how long the rest will take."""
        rest = f"; about {self.minutes_left()} minutes left" if len(self.done) > 3 and self.spent else ""
        say(f"{len(self.done)} of {len(self.all) + 1} crates: {crate.name}, {seconds:.0f} s{rest}")

    def prove(self, crate, jobs):
        """Proves a crate and writes its library, where that isn't done; the exit number of the prover."""
        folder, stamp = os.path.dirname(crate.rlib), crate.stamp()
        if text_of(f"{folder}/stamp") == stamp and os.path.isdir(crate.rlib):
            return 0
        # Statements fit only the libraries over which they were written, so those above are written again.
        for it in [crate, *(it for it in self.all if crate in it.below())]:
            shutil.rmtree(os.path.dirname(it.rlib), ignore_errors=True)
        os.makedirs(folder)
        words = crate.words(["--jobs", str(jobs)], keeps=False)
        status = crate.call(self.rt.RATTLE, "build", *words, "--statements", "-o", crate.rlib)
        if status == 0 and stamp == crate.stamp():
            with open(f"{folder}/stamp", "w", encoding="utf-8") as it:
                it.write(stamp)
        return status

    def build(self, crate, jobs):
        """Builds one crate, with so many jobs."""
        begun = time.time()
        with open(f"{self.logs}/{crate.name}.log", "a+", encoding="utf-8", errors="replace") as crate.out:
            status = self.prove(crate, jobs)
        seconds = time.time() - begun
        with self.turn:
            del self.going[crate]
            self.done.add(crate)
            if seconds > 2:
                self.spent.append((self.left[crate], seconds * jobs))
            if status:
                self.failed.append(crate.name)
            else:
                self.tell(crate, seconds)
            self.turn.notify_all()

    def start_ready(self):
        """Starts the crates whose turn it is.

        Four jobs take a fifth to a half off a long crate's time, and more of processors. With three processors and more,
        the crate with the longest chain above it has one for each, where that chain is longer than a processor's
        share of all that is left; it counts as two at most, so that others have their turn. Any other long crate has one
        for each processor that would have nothing to do. Two processors are better off with two crates.
        """
        ready = [it for it in self.all if it not in self.done and it not in self.going and self.done.issuperset(it.deps)]
        for at, crate in enumerate(sorted(ready, key=lambda it: -self.chain[it])):
            idle = self.jobs - sum(self.going.values())
            if idle <= 0:
                return
            longest = max([self.share(), *(self.chain[it] for it in [*ready, *self.going])])
            is_long = self.lines[crate] >= LONG
            leads = is_long and self.jobs > 2 and at == 0 and self.chain[crate] >= longest
            share = max(1, idle // (len(ready) - at)) if is_long else 1
            self.going[crate] = min(share, 2) if leads else share
            threading.Thread(target=self.build, args=(crate, self.jobs if leads else share)).start()

    def build_all(self):
        """Builds all libraries, and returns the name of a crate that failed, or none."""
        with self.turn:
            while len(self.done) < len(self.all) and not self.failed:
                self.start_ready()
                self.turn.wait()
            while self.going:
                self.turn.wait()
        return self.failed[0] if self.failed else None

    def link(self):
        """Proves the program and links it; the exit number of the step that failed, or 0."""
        crate, kit = self.program, self.rt.KIT
        made, toolchain = f"out/{crate.name}", ["--toolchain", f"{kit}/toolchain"]
        with open(f"{self.logs}/{crate.name}.log", "a+", encoding="utf-8", errors="replace") as crate.out:
            words = crate.words(["--jobs", "1"], keeps=False)
            status = crate.call(self.rt.RATTLE, "build", *words, *toolchain, "--backend", "llvm", "-o", f"{made}.o")
            if status:
                return status
            words = ["--target", "x86_64-unknown-linux-gnu", *toolchain, "-o", made, f"{made}.o"]
            return crate.call(f"{kit}/bin/rattle-link", *words, f"{kit}/c/libos_c.a", f"{kit}/c/liblibc_c.a")

    def let_go(self):
        """Lets other commands have the crates."""
        for it in self.held:
            os.close(it)


def build_by_rt(top, jobs, log):
    """Proves and builds all by the commands of rt alone."""
    say("this kit's rt is made otherwise than build.py knows it, so the crates are built by rt all check and rt run")
    with open(log, "wb") as out:
        how = {"cwd": f"{HERE}/crates/{top}", "stdin": subprocess.DEVNULL, "stdout": out, "stderr": out}
        if subprocess.run(["rt", "all", "check", "--jobs", str(jobs)], **how).returncode:
            fail(log)
        subprocess.run(["rt", "run", "--jobs", "1", "--", "no", "words"], **how)


def build_by_graph(rt, top, jobs, logs):
    """Proves and builds all, each crate once those below it are there, the program last."""
    signal.signal(signal.SIGINT, signal.SIG_DFL)
    rt.guarded()
    crates = Crates(rt, top, jobs, logs)
    say(f"proving and building {len(crates.all) + 1} crates with {jobs} processors; the first time this takes long")
    failed = crates.build_all()
    if failed:
        fail(f"{logs}/{failed}.log")
    say("the program, which is compiled last")
    if crates.link():
        fail(f"{logs}/{top}.log")
    crates.let_go()


def build(top, out):
    """Proves and builds all, the program last."""
    if not shutil.which("rt"):
        say("rt, the prover's command, is not on the path")
        sys.exit(7)
    logs = f"{out}/logs"
    shutil.rmtree(logs, ignore_errors=True)
    os.makedirs(logs)
    begun, rt = time.time(), load_rt()
    if rt is None:
        build_by_rt(top, processors(), f"{logs}/{top}.log")
    else:
        build_by_graph(rt, top, processors(), logs)
    if not os.access(f"{out}/{top}", os.X_OK):
        fail(f"{logs}/{top}.log")
    say(f"proved and built in {(time.time() - begun) / 60:.1f} minutes")


def main(top):
    out = f"{HERE}/crates/{top}/out"
    os.makedirs(out, exist_ok=True)
    # A second first call waits here for the first, and then finds all built.
    with open(f"{out}/building", "w", encoding="ascii") as turn:
        fcntl.flock(turn, fcntl.LOCK_EX)
        now, built = sum_of(top), f"{out}/built"
        if os.access(f"{out}/{top}", os.X_OK) and os.path.isfile(built):
            with open(built, encoding="ascii") as it:
                if it.read() == now:
                    return
        for file in (f"{out}/{top}", built):
            if os.path.exists(file):
                os.remove(file)
        build(top, out)
        with open(built, "w", encoding="ascii") as it:
            it.write(now)


if __name__ == "__main__":
    main(*sys.argv[1:])
