#!/usr/bin/env python3
"""Proves and builds a program of the repository and the libraries that it depends on, on all processors:

    scripts/build.py PROGRAM [WORD ..]
    scripts/build.py --only PROGRAM

and runs the program with these words, whose exit status is then its own; with `--only` it runs nothing that can be
seen. A library is begun once those that it depends on are built. It is proved whole, and what is kept of it for the
crates above are the statements of its proofs, as in the gate: they are loaded sooner. The longer the chain of code
above a library is, the higher is the priority of its checks among those that run, so that what most wait for has the
processors first, and the others take what it leaves. The checks of the longest chain get several jobs, the others
one, which takes the least of the processors. What is begun, how long it took and how many are left goes to standard
error; what the toolchain says of a crate, to the file `build.log` in its folder `out/`. A crate whose source is as it
was is not built again. However the script ends, its checks end with it, and the next run goes on from the libraries
that are built.

Several runs of the toolchain's command `rt` wait for each other at the libraries that they share, so this script calls the
module that `rt` itself is made of.
"""
import contextlib
import copy
import functools
import os
import shutil
import subprocess
import sys
import threading
import time
from concurrent.futures import FIRST_COMPLETED, ThreadPoolExecutor, wait

MEMORY_OF_A_CHECK = 4 << 30  # bytes
MOST_JOBS = 4
MANY_PROCESSORS = 8  # from here on each check gets several jobs, since the longest chain decides
# The crates that get several jobs: the longest chain, and the checks that end last. All others get one: several take
# up to 1.4 times as much of the processors for a small crate, though hardly more for a large one.
IN_A_HURRY = frozenset(
    """catalogue proclang_types footprint meaning workspace shelves row_store interp scheduler lanes dispatcher engine
    rows_document running command_line calvin""".split()
)
STEP = 10  # by how much the niceness of a check is above that of the one that more wait for
MOST_NICE = 19  # the system's lowest priority


def toolchain():
    """The module that `rt` is made of."""
    page = subprocess.run(["rt", "doc"], check=True, capture_output=True, text=True).stdout
    sys.path.insert(0, os.path.join(os.path.dirname(page.strip()), "bin"))
    import rtlib

    # The sum of a crate's sources is asked for along each way down to it, of which there are thousands. What changes while it
    # is built has another sum the next time.
    rtlib.Crate.stamp = functools.cache(rtlib.Crate.stamp)
    # The checks end with this process; that sets a signal's handler, which the main thread alone may.
    rtlib.guarded()
    return rtlib


def say(text):
    print(f"calvin: {text}", file=sys.stderr, flush=True)


def span(seconds):
    return f"{int(seconds) // 60} min {int(seconds) % 60:02} s"


def processors():
    """How many processors the checks have."""
    return len(os.sched_getaffinity(0))


def most_checks():
    """How many checks may run at a time, as memory allows: one more than there are processors, since a check doesn't keep
    several jobs at work all the time."""
    with open("/proc/meminfo") as lines:
        free = next(int(it.split()[1]) << 10 for it in lines if it.startswith("MemAvailable"))
    return max(1, min(processors() + 1, free // MEMORY_OF_A_CHECK))


def jobs_of(library, checks):
    """How many jobs the check of a library gets where n checks may run at a time."""
    several = library.name in IN_A_HURRY or processors() >= MANY_PROCESSORS
    return min(MOST_JOBS, processors(), checks) if several else 1


def keep_statements(rtlib, library, jobs):
    """Proves a library, keeps the statements of its proofs, and tells whether it is built. The toolchain's own build keeps proofs."""
    stamp, kept = library.stamp(), os.path.dirname(library.rlib)
    shutil.rmtree(kept, ignore_errors=True)
    os.makedirs(kept)
    words = library.words(["--jobs", str(jobs), "--statements"], keeps=False)
    if library.call(rtlib.RATTLE, "build", *words, "-o", library.rlib) != 0:
        return False
    with open(os.path.join(kept, "stamp"), "w", encoding="utf-8") as file:
        file.write(stamp)
    return True


def build(rtlib, library, jobs, niceness):
    """Builds one library with n jobs, at a priority, and tells whether it is built and how long it took."""
    begun = time.monotonic()
    os.setpriority(os.PRIO_PROCESS, threading.get_native_id(), niceness)
    os.makedirs(os.path.join(library.folder, "out"), exist_ok=True)
    library = copy.copy(library)
    with open(os.path.join(library.folder, "out", "build.log"), "w+") as library.out:
        return keep_statements(rtlib, library, jobs), time.monotonic() - begun


def chains(libraries):
    """For each library the lines of code of the longest chain from it upwards."""
    length = {}
    for library in reversed(libraries):
        above = [length[it] for it in libraries if library in it.deps]
        length[library] = library.count(rb"\n") + max(above, default=0)
    return length


def processes_below(process):
    """The processes that a process started, and those that these started."""
    with contextlib.suppress(OSError):  # it ended meanwhile
        for thread in os.listdir(f"/proc/{process}/task"):
            with open(f"/proc/{process}/task/{thread}/children") as file:
                children = file.read().split()
            for child in children:
                yield int(child)
                yield from processes_below(child)


def lower(library, niceness):
    """Lowers the priority of the checks of a library, which run in its folder."""
    for process in processes_below(os.getpid()):
        with contextlib.suppress(OSError):  # it ended meanwhile
            if os.readlink(f"/proc/{process}/cwd") == os.path.realpath(library.folder):
                os.setpriority(os.PRIO_PROCESS, process, niceness)


def ranked(running, length):
    """The niceness of each library that is built, by the one that it has or, if it is to be begun, None: the longer the chain
    above it, the lower, but none falls, since a priority can't be raised."""
    found, least = {}, None
    for library in sorted(running, key=lambda it: -length[it]):
        wanted = 0 if least is None else min(MOST_NICE, least + STEP)
        least = max(wanted, running[library] or 0)
        found[library] = least
    return found


def build_all(rtlib, libraries):
    """Builds the libraries, each after those below it, and gives the first that can't be built, if there is one."""
    length, most = chains(libraries), most_checks()
    left, niceness, builds, built = sorted(libraries, key=lambda it: -length[it]), {}, {}, set()
    while left or builds:
        ready = [it for it in left if built.issuperset(set(it.below()) & set(libraries))]
        niceness |= dict.fromkeys(ready[: most - len(builds)])
        for library, wanted in ranked(niceness, length).items():
            if niceness[library] is None:
                say(f"proving {library.name}; {len(left)} of {len(libraries)} crates are left")
                left.remove(library)
                # (a thread of its own, since a thread's priority can't be raised again)
                begun = ThreadPoolExecutor(1).submit(build, rtlib, library, jobs_of(library, most), wanted)
                builds[begun] = library
            elif niceness[library] < wanted:
                lower(library, wanted)
            niceness[library] = wanted
        for ended in wait(builds, return_when=FIRST_COMPLETED).done:
            library = builds.pop(ended)
            del niceness[library]
            well, seconds = ended.result()
            if not well:
                return library
            say(f"{library.name} is proved, which took {span(seconds)}")
            built.add(library)
    return None


def run_unseen(crate):
    """Proves, compiles and links a program, and has it read a setup that can't be there: it does nothing, and ends with status 4, which
    no failure of a build has."""
    sys.stderr.flush()
    seen = os.dup(2)
    os.dup2(crate.out.fileno(), 2)
    try:
        return 0 if crate.run([], ["run", "/dev/null/no-setup"]) == 4 else 1
    finally:
        os.dup2(seen, 2)


def main(*words):
    only = words[0] == "--only"
    name, *words = words[1:] if only else words
    rtlib = toolchain()
    top = os.path.dirname(os.path.dirname(os.path.realpath(__file__)))
    crate = rtlib.Crate(os.path.join(top, "crates", name), top, {})
    crate.held = rtlib.lock([*crate.below(), crate])
    os.chdir(crate.folder)
    try:
        failed = build_all(rtlib, [it for it in crate.below() if not it.is_built()])
        if failed:
            say(f"{failed.name} is not proved: crates/{failed.name}/out/build.log says why")
            status = 1
        else:
            say(f"proving and compiling {name}, the last crate")
            os.makedirs("out", exist_ok=True)
            with open(os.path.join("out", "build.log"), "w") as crate.out:
                status = run_unseen(crate) if only else crate.run([], words)
    except KeyboardInterrupt:
        status = 130
    # (not by a return, which would wait for the checks that still run: they end with this process, and so does the lock)
    os._exit(status)


if __name__ == "__main__":
    main(*sys.argv[1:])
