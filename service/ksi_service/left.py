"""What runs out: the seconds of the plan, the time to the next publication, and the room on disks."""
import os
from typing import Dict


def seconds_left(last: int, now: float) -> int:
    """The seconds of a plan that are still to come, 0 after its last one."""
    return max(0, last - int(now))


def free_bytes(folders: Dict[str, str]) -> Dict[str, int]:
    """The bytes that this process may still write below each folder, by the folder's name. A folder that is not there has none."""
    free = {}
    for name, folder in folders.items():
        try:
            disk = os.statvfs(folder)
        except OSError:
            continue
        free[name] = disk.f_bavail * disk.f_frsize
    return free
