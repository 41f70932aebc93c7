#!/usr/bin/env python3
"""wheel.py VERSION LIBKSI_SO OUT writes a wheel of the module and the library. The same files give the same bytes."""
import base64, hashlib, os, sys, zipfile

HERE = os.path.dirname(os.path.abspath(__file__))
TAG = "py3-none-manylinux_2_17_x86_64"
CLASSIFIERS = ["Intended Audience :: Developers", "Operating System :: POSIX :: Linux", "Programming Language :: Python :: 3 :: Only",
               "Topic :: Security :: Cryptography", "Typing :: Typed"]


def read(name):
    with open(name, "rb") as file:
        return file.read()


def metadata(version):
    """The text of METADATA: what `pip show` prints, and what an index shows."""
    fields = [("Metadata-Version", "2.1"), ("Name", "ksi"), ("Version", version), ("Summary", "Verifies KSI signatures with a proved library"),
              ("Author", "The authors of ksi"), ("License", "Not chosen yet: see NOTICE"), ("License-File", "NOTICE"),
              ("Keywords", "timestamp,signature,hash,verification,ksi"), *(("Classifier", it) for it in CLASSIFIERS),
              ("Requires-Python", ">=3.8"), ("Description-Content-Type", "text/markdown")]
    return "".join(f"{name}: {value}\n" for name, value in fields) + "\n" + read(f"{HERE}/README.md").decode()


def row(name, body):
    digest = base64.urlsafe_b64encode(hashlib.sha256(body).digest()).rstrip(b"=").decode()
    return f"{name},sha256={digest},{len(body)}\n"


def files_of(version, library):
    info = f"ksi-{version}.dist-info"
    files = {
        "ksi/__init__.py": read(f"{HERE}/ksi/__init__.py"),
        "ksi/client.py": read(f"{HERE}/ksi/client.py"),
        "ksi/py.typed": read(f"{HERE}/ksi/py.typed"),
        "ksi/libksi.so": read(library),
        f"{info}/NOTICE": read(f"{HERE}/../../NOTICE"),
        f"{info}/METADATA": metadata(version).encode(),
        f"{info}/WHEEL": f"Wheel-Version: 1.0\nGenerator: wheel.py\nRoot-Is-Purelib: false\nTag: {TAG}\n".encode(),
    }
    files[f"{info}/RECORD"] = ("".join(row(name, body) for name, body in files.items()) + f"{info}/RECORD,,\n").encode()
    return files


def main(version, library, out):
    path = os.path.join(out, f"ksi-{version}-{TAG}.whl")
    with zipfile.ZipFile(path, "w", zipfile.ZIP_DEFLATED) as wheel:
        for name, body in files_of(version, library).items():
            entry = zipfile.ZipInfo(name, (1980, 1, 1, 0, 0, 0))
            entry.external_attr, entry.compress_type = 0o644 << 16, zipfile.ZIP_DEFLATED
            wheel.writestr(entry, body)
    print(path)


if __name__ == "__main__":
    main(*sys.argv[1:])
