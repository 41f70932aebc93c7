"""Saves many small files. Each is complete or missing at any moment: it is written under another name, and has its own name only once it is
on the disk. One sync serves all files of a batch."""
import ctypes
import os
from typing import Dict, List, NamedTuple

UNFINISHED = b".new"


class Written(NamedTuple):
    path: bytes
    content: bytes


def sync_file_system(number: int) -> None:
    """Has everything that was written to the file system of a descriptor on its disk. Python has no name for this call."""
    if ctypes.CDLL(None, use_errno=True).syncfs(number) != 0:
        fault = ctypes.get_errno()
        raise OSError(fault, os.strerror(fault))


def save(files: List[Written]) -> Dict[bytes, OSError]:
    """Saves files, and returns for each path that was not saved the reason. Folders that are missing are made. A file that is replaced
    leaves its mode to the new one."""
    faults: Dict[bytes, OSError] = {}
    folders = set()
    for it in files:
        try:
            write(it)
            folders.add(os.path.dirname(it.path) or b".")
        except OSError as fault:
            remove(it.path + UNFINISHED)
            faults[it.path] = fault
    sync(folders)
    for it in files:
        if it.path not in faults:
            try:
                os.replace(it.path + UNFINISHED, it.path)
            except OSError as fault:
                remove(it.path + UNFINISHED)
                faults[it.path] = fault
    return faults


def write(it: Written) -> None:
    made = it.path + UNFINISHED
    try:
        number = os.open(made, os.O_WRONLY | os.O_CREAT | os.O_TRUNC | os.O_CLOEXEC, 0o666)
    except FileNotFoundError:
        os.makedirs(os.path.dirname(it.path), exist_ok=True)
        number = os.open(made, os.O_WRONLY | os.O_CREAT | os.O_TRUNC | os.O_CLOEXEC, 0o666)
    with open(number, "wb") as file:
        try:
            os.fchmod(number, os.stat(it.path).st_mode & 0o777)
        except FileNotFoundError:
            pass
        file.write(it.content)


def sync(folders) -> None:
    """Syncs each file system that has one of these folders, once."""
    numbers = {}
    try:
        for folder in folders:
            number = os.open(folder, os.O_RDONLY | os.O_DIRECTORY)
            device = os.fstat(number).st_dev
            if device in numbers:
                os.close(number)
            else:
                numbers[device] = number
        for number in numbers.values():
            sync_file_system(number)
    finally:
        for number in numbers.values():
            os.close(number)


def remove(path: bytes) -> None:
    try:
        os.remove(path)
    except OSError:
        pass
