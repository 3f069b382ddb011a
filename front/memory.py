"""How much memory the program may have, so that no question takes all of the machine's: it answers `error: no memory` before that."""
import re
import resource
from typing import Mapping, Optional

# The least that it gets where little is free, in bytes: it begins with less.
LEAST = 64 << 20
SHIFTS = {"": 0, "k": 10, "m": 20, "g": 30}


def limit(environ: Mapping[str, str]) -> Optional[int]:
    """How many bytes: what KSV_MEMORY says, as 500000000, 500M or 2G, or else three quarters of what is free; None where that can't be told."""
    found = re.fullmatch(r"([0-9]{1,12})([kKmMgG]?)", environ.get("KSV_MEMORY", ""))
    if found:
        return int(found[1]) << SHIFTS[found[2].lower()]
    try:
        with open("/proc/meminfo", encoding="utf-8") as file:
            free = re.search(r"MemAvailable: *([0-9]+) kB", file.read())
    except OSError:
        return None
    return max(LEAST, int(free[1]) * 1024 * 3 // 4) if free else None


def apply(most: Optional[int]) -> None:
    """Gives this process, and those that it begins, no more than that, nor more than it may have already."""
    if most is not None:
        soft, hard = resource.getrlimit(resource.RLIMIT_AS)
        known = [it for it in (most, soft, hard) if it != resource.RLIM_INFINITY]
        resource.setrlimit(resource.RLIMIT_AS, (min(known), hard))
