"""The client of the HTTP API: the module ksi.client of lang/python, as this checkout has it or as it is installed. It is loaded by its file,
since its package loads libksi, which ksi-log does not need."""
import importlib.util
import os
import sys
from types import ModuleType

BESIDE = os.path.dirname(os.path.dirname(os.path.abspath(__file__)))
"""The folder of this package: service/ of a checkout, or lib/ksi after an installation."""
PLACES = [os.path.join(BESIDE, "python"), os.path.join(os.path.dirname(BESIDE), "lang", "python")]


def loaded() -> ModuleType:
    """The module, from the first place that has it."""
    paths = [os.path.join(place, "ksi", "client.py") for place in PLACES]
    path = next(filter(os.path.exists, paths), paths[0])
    spec = importlib.util.spec_from_file_location("ksi_client", path)
    assert spec is not None and spec.loader is not None
    module = importlib.util.module_from_spec(spec)
    sys.modules["ksi_client"] = module
    spec.loader.exec_module(module)
    return module


_client = loaded()
Client, Refused, Result, Signature = _client.Client, _client.Refused, _client.Result, _client.Signature
