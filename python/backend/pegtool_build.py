#!/usr/bin/env python3
"""Builds the wheel of the Python package, as PEP 517 describes. The wheel has the built C library in it.

`pip install ./python` calls `build_wheel`. `pegtool_build.py FOLDER` makes a wheel without pip, and prints its path.
The standard library is all that a build needs, so it works without a network.
"""

import base64
import hashlib
import pathlib
import re
import sys
import sysconfig
import zipfile
from typing import Any, Iterator, List, Mapping, Optional, Tuple

PYTHON = pathlib.Path(__file__).resolve().parent.parent
PACKAGE = PYTHON / "pegtool"
LIBRARY = PYTHON.parent / "out" / "lib" / "libpeg.so.1"

# Each file of a wheel has this time, so that equal files make equal wheels.
TIME = (1980, 1, 1, 0, 0, 0)

READ_BY_ALL = 0o644
RUN_BY_ALL = 0o755
REGULAR_FILE = 0o100000


class UnsupportedOperation(Exception):
    """The backend can't do what a build tool asks for."""


def version() -> str:
    """The version of the package, read from its source, since an import would load the library."""
    source = (PACKAGE / "_version.py").read_text(encoding="utf-8")
    found = re.search(r'^__version__ = "(.+)"$', source, re.MULTILINE)
    if found is None:
        raise ValueError("pegtool/_version.py has no version")
    return found[1]


def tag() -> str:
    """The tag of the wheel: any Python 3, no extension module, and the platform of the library."""
    platform = re.sub(r"[-. ]", "_", sysconfig.get_platform())
    return f"py3-none-{platform}"


def metadata() -> str:
    """The file METADATA of the wheel."""
    lines = [
        "Metadata-Version: 2.1",
        "Name: pegtool",
        f"Version: {version()}",
        "Summary: Parse texts by parsing expression grammars, with a proved parser",
        "Requires-Python: >=3.9",
        "Classifier: Programming Language :: Python :: 3",
        "Classifier: Topic :: Text Processing",
        "Classifier: Typing :: Typed",
    ]
    return "\n".join(lines) + "\n"


def wheel_file() -> str:
    """The file WHEEL of the wheel."""
    lines = ["Wheel-Version: 1.0", "Generator: pegtool_build", "Root-Is-Purelib: false", f"Tag: {tag()}"]
    return "\n".join(lines) + "\n"


def package_files() -> Iterator[Tuple[str, bytes, int]]:
    """The name, the content and the mode of each file of the package, the library included."""
    for path in sorted([*PACKAGE.glob("*.py"), PACKAGE / "py.typed"]):
        yield f"pegtool/{path.name}", path.read_bytes(), READ_BY_ALL
    yield f"pegtool/{LIBRARY.name}", LIBRARY.read_bytes(), RUN_BY_ALL


def record_line(name: str, content: bytes) -> str:
    """The line of the file RECORD for a file."""
    digest = base64.urlsafe_b64encode(hashlib.sha256(content).digest()).rstrip(b"=").decode("ascii")
    return f"{name},sha256={digest},{len(content)}"


def write_file(wheel: zipfile.ZipFile, name: str, content: bytes, mode: int) -> None:
    """Adds a file to a wheel."""
    entry = zipfile.ZipInfo(name, TIME)
    entry.external_attr = (REGULAR_FILE | mode) << 16
    entry.compress_type = zipfile.ZIP_DEFLATED
    wheel.writestr(entry, content)


def build_wheel(
    wheel_directory: str,
    config_settings: Optional[Mapping[str, Any]] = None,
    metadata_directory: Optional[str] = None,
) -> str:
    """Writes the wheel into a folder. Returns the name of the wheel. Ends the process with a message if the library
    isn't built."""
    if not LIBRARY.exists():
        sys.exit(f"{LIBRARY} isn't built: run `make lib` at the top of the repository, and repeat this")
    info = f"pegtool-{version()}.dist-info"
    files = [
        *package_files(),
        (f"{info}/METADATA", metadata().encode("utf-8"), READ_BY_ALL),
        (f"{info}/WHEEL", wheel_file().encode("utf-8"), READ_BY_ALL),
    ]
    record = [record_line(name, content) for name, content, _ in files] + [f"{info}/RECORD,,"]
    files.append((f"{info}/RECORD", ("\n".join(record) + "\n").encode("utf-8"), READ_BY_ALL))
    name = f"pegtool-{version()}-{tag()}.whl"
    with zipfile.ZipFile(pathlib.Path(wheel_directory, name), "w") as wheel:
        for file in files:
            write_file(wheel, *file)
    return name


def build_sdist(sdist_directory: str, config_settings: Optional[Mapping[str, Any]] = None) -> str:
    """There is no source distribution: the library is built from the whole repository."""
    raise UnsupportedOperation("the sources of the library are in the repository alone; build a wheel")


def main(words: List[str]) -> int:
    """Makes the wheel in the folder that the only argument names."""
    if len(words) != 1:
        print("pegtool_build.py FOLDER", file=sys.stderr)
        return 2
    folder = pathlib.Path(words[0])
    folder.mkdir(parents=True, exist_ok=True)
    print(folder / build_wheel(words[0]))
    return 0


if __name__ == "__main__":
    sys.exit(main(sys.argv[1:]))
