"""Files that are complete or missing: each is written under another name, synced and renamed. Also the lock on a folder."""
import fcntl
import os
import pwd
import time

from .errors import ServiceError

LOOKS, LOOK_SECONDS = 10, 0.02
"""How often a lock is tried, and the seconds between."""


class Held(ServiceError):
    """Another service has the folder."""


class Foreign(ServiceError):
    """The folder is of another user, who could not open what root leaves there."""


def lock(folder):
    """Locks a folder until the process ends, or the file that is returned is closed."""
    path, reason = os.path.join(folder, "lock"), f"another service runs over {folder}"
    for _ in range(LOOKS):
        try:
            return lock_of(path, reason)
        except Held:
            # another process may only be looking whether it is held
            time.sleep(LOOK_SECONDS)
    return lock_of(path, reason)


def is_held(folder):
    """Whether a service runs over a folder. Whoever may read the folder may call this."""
    try:
        lock_of(os.path.join(folder, "lock"), "", fcntl.LOCK_SH, "r").close()
        return False
    except FileNotFoundError:
        return False
    except Held:
        return True


def lock_of(path, reason, how=fcntl.LOCK_EX, mode="a"):
    """Locks a file, or raises Held with the reason. Root locks nothing of another user to change it."""
    file = open(path, mode, encoding="ascii")
    owner = os.fstat(file.fileno()).st_uid
    if how == fcntl.LOCK_EX and os.geteuid() == 0 != owner:
        file.close()
        raise Foreign(f"{path} is of the user {name_of(owner)}, who could not open what root leaves: run this as that user")
    try:
        fcntl.flock(file, how | fcntl.LOCK_NB)
    except BlockingIOError:
        file.close()
        raise Held(reason) from None
    except OSError as error:
        file.close()
        raise OSError(error.errno, error.strerror, path) from None
    return file


def name_of(user):
    """The name of a user by its number, or the number if it has none."""
    try:
        return pwd.getpwuid(user).pw_name
    except KeyError:
        return str(user)


def drop_cache(path):
    """Drops the system's cache of a file, which may differ from the disk after a sync that failed."""
    if os.path.exists(path):
        file = os.open(path, os.O_RDONLY)
        os.posix_fadvise(file, 0, 0, os.POSIX_FADV_DONTNEED)
        os.close(file)


def sync_folder(folder):
    """Has the names in a folder on the disk."""
    number = os.open(folder or ".", os.O_RDONLY | os.O_DIRECTORY)
    try:
        os.fsync(number)
    finally:
        os.close(number)


def make_folder(path):
    """Makes a folder and its parents if they are missing. Their names are on the disk before anything in them."""
    path = os.path.abspath(path)
    if not os.path.isdir(path):
        above = os.path.dirname(path)
        make_folder(above)
        os.makedirs(path, exist_ok=True)
        sync_folder(above)


def keep(made, name):
    """Puts a file in its place once it is on the disk. Both are on one file system."""
    with open(made, "rb") as file:
        os.fsync(file.fileno())
    os.replace(made, name)
    sync_folder(os.path.dirname(name))


def write(name, content):
    """Writes a file whole, then puts it in its place. One that it replaces leaves it its mode."""
    made = f"{name}.new"
    try:
        with open(made, "wb") as file:
            if os.path.exists(name):
                os.fchmod(file.fileno(), os.stat(name).st_mode & 0o777)
            file.write(content)
        keep(made, name)
    except OSError as fault:
        remove(made)
        raise named(fault, name) from None


def named(fault, name):
    """An error with the name of its file: a write or a sync does not report it."""
    return OSError(fault.errno, fault.strerror, fault.filename or name)


def remove(name):
    """Removes a file, if it is there."""
    try:
        os.remove(name)
    except FileNotFoundError:
        pass


def content_of(name):
    """A file's bytes, or None if there is no file."""
    try:
        with open(name, "rb") as file:
            return file.read()
    except FileNotFoundError:
        return None
