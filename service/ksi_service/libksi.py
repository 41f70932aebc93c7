"""The modules of lang/python: the proved verifier libksi in this process, and the client of the HTTP API.

`ksi` is the installed module (the wheel, or Debian's python3-ksi) if there is one, otherwise that of this checkout or installation. The
client needs no library, so it is loaded by its file."""
import functools
import importlib
import importlib.util
import os
import sys
from types import ModuleType
from typing import List, Optional

from .programs import BESIDE, TOP

NAME = "ksi"
SHARED = "libksi.so.1"


def folders() -> List[str]:
    """The folders that may have the package `ksi`."""
    return [os.path.join(BESIDE, "python"), os.path.join(TOP, "lang", "python")]


@functools.lru_cache(maxsize=1)
def library() -> Optional[ModuleType]:
    """The module `ksi`, or None if the library is not found or has another interface."""
    before = os.environ.get("KSI_LIBRARY")
    for folder in [None, *folders()]:
        try:
            return loaded(folder)
        except ImportError:
            sys.modules.pop(NAME, None)
        finally:
            if before is None:
                os.environ.pop("KSI_LIBRARY", None)
    return None


def loaded(folder: Optional[str]) -> ModuleType:
    """The module, after its folder is on the path. A library that was built in this checkout is found too."""
    if folder is not None:
        built = os.path.join(TOP, "out", SHARED)
        if os.path.exists(built):
            os.environ.setdefault("KSI_LIBRARY", built)
        if folder not in sys.path:
            sys.path.append(folder)
    module = importlib.import_module(NAME)
    if not hasattr(module, "verify"):
        # a folder of this name, which Python takes for a package
        raise ImportError("not the module of libksi")
    return module


@functools.lru_cache(maxsize=1)
def client() -> ModuleType:
    """The client of the HTTP API. Raises FileNotFoundError if it is not installed."""
    path = next((it for it in (os.path.join(folder, NAME, "client.py") for folder in folders()) if os.path.exists(it)), None)
    if path is None:
        raise FileNotFoundError(2, "No such file", os.path.join(folders()[0], NAME, "client.py"))
    spec = importlib.util.spec_from_file_location("ksi_client", path)
    module = importlib.util.module_from_spec(spec)
    sys.modules["ksi_client"] = module
    spec.loader.exec_module(module)
    return module
