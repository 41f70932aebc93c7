"""The links of a signature as rows of a report, by `ksi_step` of libksi."""
import hashlib
from typing import Any, Dict, List

from . import libksi
from .looks import signature_at


def rows_of(signature: bytes) -> List[str]:
    """A row for each link: its number, the side and the bytes of the other part, and the join of both."""
    library = libksi.library()
    if library is None:
        return []
    rows = []
    for number, it in enumerate(library.steps(signature), 1):
        where = "calendar" if it.calendar else f"tree {it.chain + 1}"
        rows.append(f"{number:3} {where:9} {'right' if it.side == 0 else 'left '} {it.sibling.hex()} -> {it.join.hex()}")
    return rows


def details(path: bytes) -> Dict[str, Any]:
    """What a report on one file has besides its row: the size and the hash of the signature file, and its links."""
    content, _ = signature_at(path)
    if content is None:
        return {}
    return {"signature_size": len(content), "signature_sha256": hashlib.sha256(content).hexdigest(), "links": rows_of(content)}
