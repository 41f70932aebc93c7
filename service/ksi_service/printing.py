"""A publication as text for a newspaper, by the proved `ksi_print`, which reads it too, and that text as a QR code."""
import io
import os
import subprocess
import tempfile
from typing import Tuple

from .errors import MissingPackage, ServiceError
from .programs import program


class NotPrinted(ServiceError):
    """The program refuses the file or the second: its line."""


def text(publications: str, second: int) -> str:
    """The text of the publication of a second (docs/FORMATS.md, "Printed publications")."""
    ran = subprocess.run([program("ksi_print"), "text", publications, str(second)], capture_output=True, text=True, check=False)
    if ran.returncode:
        raise NotPrinted(ran.stdout.strip() or f"ksi_print exited with status {ran.returncode}")
    return ran.stdout


def read(printed: str) -> Tuple[int, str]:
    """The second and the root of a printed text. Raises NotPrinted with the line of `ksi_print` that says which group is wrong."""
    with tempfile.TemporaryDirectory(prefix="ksi-print-") as room:
        typed = os.path.join(room, "typed")
        with open(typed, "w", encoding="utf-8", errors="replace") as file:
            file.write(printed)
        ran = subprocess.run([program("ksi_print"), "read", typed, os.path.join(room, "publications")], capture_output=True, text=True, check=False)
    words = ran.stdout.split()
    if ran.returncode or len(words) != 3 or words[0] != "read":
        raise NotPrinted(f"the print cannot be read: {ran.stdout.strip() or f'ksi_print exited with status {ran.returncode}'}")
    return int(words[1]), words[2]


def picture(printed: str) -> bytes:
    """A text as a QR code, in SVG. A space takes the place of each line break, so that the code needs only capital letters, digits and spaces."""
    try:
        import qrcode  # pylint: disable=import-outside-toplevel
        import qrcode.image.svg
    except ImportError:
        raise MissingPackage("python3-qrcode") from None
    code = qrcode.QRCode(error_correction=qrcode.constants.ERROR_CORRECT_M, image_factory=qrcode.image.svg.SvgPathImage)
    code.add_data(" ".join(printed.split()))
    out = io.BytesIO()
    code.make_image().save(out)
    return out.getvalue()
