"""Builds the libraries that a crate stands on, and says on standard error how far it is: `tools/libraries.py CRATE`.

`rt` builds the libraries of a checkout one after another, each with a few jobs at most. So others are proved beside them in copies of the
sources, in out/copies of the crate. What a copy proved the checkout takes over, since `rt` knows it by its sum. The checkout begins alone,
because a library that another checkout of this machine has proved is taken over in seconds; copies are made once one takes longer.

If a library isn't proved, the script prints what `rt` said of it, and ends with status 70. However it ends, it removes the copies.
"""

import fcntl
import os
import shutil
import signal
import subprocess
import sys
import time

TOP = os.path.dirname(os.path.dirname(os.path.realpath(__file__)))
# The most jobs that `rt` has a use for in one crate.
MOST_JOBS = 4
# How many kB of memory are there for each proof.
MEMORY = 3_000_000
# How many seconds it takes at most to take a library over.
TAKEN_OVER = 10
# What ends the script.
SIGNALS = (signal.SIGINT, signal.SIGTERM, signal.SIGHUP)
# The status that says that a program is not built.
NOT_BUILT = 70
# Of what a crate is made.
PARTS = ("src", "specs", "proofs")


def at_once():
    """How many proofs may go on at once: one a processor, as many as the free memory holds."""
    with open("/proc/meminfo", encoding="utf-8") as file:
        [free] = (int(line.split()[1]) for line in file if line.startswith("MemAvailable:"))
    return max(1, min(len(os.sched_getaffinity(0)), free // MEMORY))


def lines_of_crates():
    """The lines of crates.txt, by the crates that they name."""
    with open(f"{TOP}/crates.txt", encoding="utf-8") as file:
        lines = [line for line in file if line.partition("#")[0].strip()]
    return {line.partition(":")[0].split()[0]: line for line in lines}


def libraries_below(name, lines):
    """The libraries of the repository that a crate stands on, lowest first, each with those that its line names."""
    found = {}

    def add(crate):
        named = [word for word in lines[crate].partition("#")[0].partition(":")[2].split() if word in lines]
        for library in named:
            if library not in found:
                add(library)
        found[crate] = named

    add(name)
    del found[name]
    return found


class Library:
    """A library in the checkout, with those that it stands on."""

    def __init__(self, name, needs):
        self.name, self.needs = name, needs
        self.below = {self}.union(*(library.below for library in needs))
        self.out = f"{TOP}/crates/{name}/out"
        parts = [walked for part in PARTS for walked in os.walk(f"{TOP}/crates/{name}/{part}")]
        self.files = [f"{folder}/{file}" for folder, _, files in parts for file in files]
        # A folder is newer if a file in it was added or removed.
        self.newest = max(os.lstat(path).st_mtime for path in [folder for folder, _, _ in parts] + self.files)
        # The longest chain of libraries that begins with this one, in bytes of their sources. It is known once those above it are.
        self.chain = sum(os.path.getsize(path) for path in self.files if path.endswith(".rt"))

    def stands(self):
        """Whether the checkout has built it, and nothing that it is made of is newer."""
        stamp, mark = f"{self.out}/rlib/stamp", f"{self.out}/library"
        built = [os.path.getmtime(path) for path in (stamp, mark) if os.path.exists(path)]
        return os.path.exists(stamp) and max(library.newest for library in self.below) <= max(built)

    def is_built(self, moment):
        """Notes that the checkout has built it, and so those that it stands on, of the sources as they were at a moment. (The stamp of a
        library that was taken over may be older than the checkout.)"""
        for library in self.below:
            with open(f"{library.out}/library", "wb"):
                pass
            os.utime(f"{library.out}/library", (moment, moment))


class Run:
    """`rt` that builds a library in the checkout or in a copy. What isn't first gives way to what is."""

    def __init__(self, top, library, jobs, is_first=True):
        self.top, self.library, self.jobs, self.began = top, library, jobs, time.monotonic()
        folder = f"{top}/crates/{library.name}"
        os.makedirs(f"{folder}/out", exist_ok=True)
        self.log = f"{folder}/out/library.log"
        with open(self.log, "wb") as log:
            # On standard error it says only for what it waits, as for another command in the same checkout.
            words = [*([] if is_first else ["nice"]), "rt", "lib", "--jobs", str(jobs)]
            self.process = subprocess.Popen(words, cwd=folder, stdin=subprocess.DEVNULL, stdout=log)

    def said(self):
        """What `rt` said, with the paths of the checkout."""
        with open(self.log, encoding="utf-8", errors="replace") as log:
            return log.read().replace(self.top, TOP)


class Build:
    """The libraries of a crate: those that are built, those at which `rt` is at work, and those that are left."""

    def __init__(self, name):
        self.name, self.moment, self.start = name, time.time(), time.monotonic()
        self.lines, self.libraries = lines_of_crates(), {}
        for library, needs in libraries_below(name, self.lines).items():
            self.libraries[library] = Library(library, [self.libraries[each] for each in needs])
        self.lowest_first = list(self.libraries.values())
        for library in reversed(self.lowest_first):
            library.chain += max((above.chain for above in self.lowest_first if library in above.needs), default=0)
        self.built = {library for library in self.lowest_first if library.stands()}
        self.left = sorted((it for it in self.lowest_first if it not in self.built), key=lambda library: -library.chain)
        self.running, self.has_copies, self.at_once = [], False, at_once()
        self.copies = f"{TOP}/crates/{name}/out/copies"

    def copy(self, number):
        """A copy of the sources of these libraries, whose crates.txt names no other crate."""
        top = f"{self.copies}/{number}"
        if not os.path.isdir(top):
            for name in self.libraries:
                for part in PARTS:
                    if os.path.isdir(f"{TOP}/crates/{name}/{part}"):
                        shutil.copytree(f"{TOP}/crates/{name}/{part}", f"{top}/crates/{name}/{part}")
            shutil.copyfile(f"{TOP}/HANDLES", f"{top}/HANDLES")
            with open(f"{top}/crates.txt", "w", encoding="utf-8") as file:
                file.writelines(self.lines[name] for name in self.libraries)
        return top

    def place(self):
        """Where `rt` isn't at work: the checkout, or else a copy, once there may be copies."""
        busy = [run.top for run in self.running]
        if TOP not in busy or not self.has_copies:
            return None if TOP in busy else TOP
        return next(top for number in range(self.at_once) if (top := self.copy(number)) not in busy)

    def begin(self):
        """Begins as many libraries as may go on at once, those with the longest chain first. The one with the longest chain of all has all
        jobs and goes first, since it bounds the time of the whole; any other has one job, or more if few are there to begin."""
        ready = [library for library in self.left if self.built.issuperset(library.needs)]
        for at, library in enumerate(ready):
            free = self.at_once - len(self.running)
            top = self.place() if free else None
            if not top:
                break
            is_longest = all(run.library.chain <= library.chain for run in self.running)
            jobs = self.at_once if is_longest else max(1, free // (len(ready) - at))
            self.left.remove(library)
            self.running.append(Run(top, library, min(jobs, MOST_JOBS), is_longest))

    def end(self, run):
        """Takes in what a run that has ended came to."""
        self.running.remove(run)
        if run.process.returncode:
            print(run.said(), f"{self.name}: the library {run.library.name} was not built", sep="", file=sys.stderr)
            sys.exit(NOT_BUILT)
        if run.top == TOP:
            run.library.is_built(self.moment)
        if run.library not in self.built:
            self.built.add(run.library)
            minutes = (time.monotonic() - self.start) / 60
            done = f"{len(self.built)} of {len(self.lowest_first)} libraries after {minutes:.0f} min"
            print(f"{self.name}: {run.library.name} is built, {done}", file=sys.stderr, flush=True)

    def wait(self):
        """Waits until a run has ended, or has shown that it proves, so that copies are worth their making."""
        while True:
            for run in self.running:
                if run.process.poll() is not None:
                    return self.end(run)
            if not self.has_copies and time.monotonic() - self.running[0].began > TAKEN_OVER:
                self.has_copies = True
                return None
            time.sleep(0.1)

    def all(self):
        """Builds them all. The checkout then takes over what copies alone have: the highest first, which brings those below it."""
        while self.left or self.running:
            self.begin()
            self.wait()
        for library in reversed(self.lowest_first):
            if not library.stands():
                self.running.append(Run(TOP, library, min(self.at_once, MOST_JOBS)))
            while self.running:
                self.wait()

    def stop(self):
        """Ends what runs, and removes the copies."""
        for run in self.running:
            run.process.terminate()
        for run in self.running:
            run.process.wait()
        subprocess.run(["rm", "-rf", self.copies], check=False)


def stop_by(number, _):
    """Ends the script by a signal, by way of `stop`, which no second signal cuts short."""
    for each in SIGNALS:
        signal.signal(each, signal.SIG_IGN)
    sys.exit(128 + number)


def main():
    [name] = sys.argv[1:]
    for number in SIGNALS:
        signal.signal(number, stop_by)
    os.makedirs(f"{TOP}/crates/{name}/out", exist_ok=True)
    with open(f"{TOP}/crates/{name}/out/copies.lock", "wb") as lock:
        try:
            fcntl.flock(lock, fcntl.LOCK_EX | fcntl.LOCK_NB)
        except BlockingIOError:
            print(f"{name}: another build of it goes on; waiting for it", file=sys.stderr, flush=True)
            fcntl.flock(lock, fcntl.LOCK_EX)
        build = Build(name)
        # What a run left that was killed.
        build.stop()
        try:
            build.all()
        finally:
            build.stop()


main()
