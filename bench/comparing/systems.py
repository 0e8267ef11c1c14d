"""The systems that are measured, and what each is run as."""
import subprocess
import tempfile
from dataclasses import dataclass
from pathlib import Path

TINY = '["setup",3,["catalogue",1,[["t",1,[["c","int"]]]]],["procs",1,[]],["rows",1,[]],0,"partitions"]\n'


@dataclass(frozen=True)
class System:
    """A program with the words before the setup, `WORKLOAD` standing for the load's name at that store, and which
    version of the setup it is given. It writes reports, or reply lines alone."""

    name: str
    words: tuple
    version: int = 1
    store: str = None

    @property
    def reports(self):
        return self.store is None

    def command(self, load, folder):
        """What it is run as on a load in a folder, or nothing where the load can't be said there."""
        workload = getattr(load, self.store) if self.store else None
        if self.store and not workload:
            return None
        words = [workload if word == "WORKLOAD" else word for word in self.words]
        return [*words, str(folder / ("setup3.json" if self.version == 3 else "setup.json"))]


def reads_version_3(*words):
    """Whether a program takes a setup of version 3 after these words, and an empty log."""
    with tempfile.NamedTemporaryFile("w", suffix=".json") as setup:
        setup.write(TINY)
        setup.flush()
        nothing = subprocess.DEVNULL
        run = subprocess.run([*words, setup.name], stdin=nothing, stdout=nothing, stderr=nothing, check=False)
        return run.returncode == 0


def of_program(name, path, ways):
    """A program of the executor, alone or on workers, on setups of version 1, and of 3 where it reads them."""
    for version in (1, 3) if reads_version_3(path, "check") else (1,):
        for way in ways:
            words = ("--alone",) if way == "alone" else ("--workers", way)
            label = f"{name} {way}" + (", v3" if version == 3 else "")
            yield System(label, (path, "run", *words), version)


def of_peer(name, path):
    """A program that writes reports, likewise."""
    yield System(name, (path,))
    if reads_version_3(path):
        yield System(f"{name}, v3", (path,), 3)


def of_all(paths, made_of):
    """The systems that are made of each name and path, and a sentence for each that isn't there, or lacks version 3."""
    systems, missing = [], []
    for name, path in paths:
        if not Path(path).exists():
            missing.append(f"{name} is missing: there is no {path}.")
            continue
        made = list(made_of(name, path))
        if all(system.version == 1 for system in made):
            missing.append(f"{name} reads no setup of version 3.")
        systems += made
    return systems, missing


def found(words):
    """The systems that can be run, and a sentence for each that can't."""
    systems, missing = of_all(words.peer, of_peer)
    for store in ("sqlite", "redis"):
        path = words.clients / store
        if path.exists():
            systems.append(System(store, (str(path), "WORKLOAD"), store=store))
        else:
            missing.append(f"{store} is missing: bench/build.sh makes its client.")
    programs, lacking = of_all(words.program, lambda name, path: of_program(name, path, words.ways))
    return systems + programs, missing + lacking
