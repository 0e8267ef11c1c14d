"""What the machine is on which figures are taken."""
import datetime
import os
import platform
from pathlib import Path


def processor():
    """The processors' name, as the system tells it."""
    try:
        for line in Path("/proc/cpuinfo").read_text().splitlines():
            if line.startswith("model name"):
                return line.split(":", 1)[1].strip()
    except OSError:
        pass
    return platform.machine() or "an unknown processor"


def other_work(load, count):
    """What is said of a load that `count` processors had before anything was measured."""
    return f", on which other work went on (a load of {load:.1f})" if load > count / 2 else ""


def description():
    """The machine and the date in one line, and whether it is busy: to be asked before anything is measured."""
    count = len(os.sched_getaffinity(0))
    date = datetime.datetime.now(datetime.timezone.utc).date().isoformat()
    system = f"{platform.system()} {platform.release()}"
    return f"{count} processors of {processor()}, {system}, {date}" + other_work(os.getloadavg()[0], count)
