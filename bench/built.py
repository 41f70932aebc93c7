"""Checks for the programs and commands that a script of this folder needs. If one is missing, the script prints a line and exits with 2."""
import os, shutil, sys

CRATES = os.path.join(os.path.dirname(os.path.dirname(os.path.abspath(__file__))), "crates")


def needs(*wanted):
    """Ends the script if one of these programs (by path) or commands is missing."""
    for path in map(os.path.normpath, wanted):
        if not shutil.which(path):
            name = os.path.basename(path)
            built = f"is not built: `rt run` in crates/{name} builds it, and so does `rt ci`"
            print(path, built if path.startswith(f"{CRATES}/") else "is not here", file=sys.stderr)
            sys.exit(2)
