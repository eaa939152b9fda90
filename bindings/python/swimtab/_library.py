"""Finds and loads libswimtab."""

import ctypes
import ctypes.util
import os
from pathlib import Path
from typing import Iterator, Optional

SONAME = "libswimtab.so.2"
OLDEST = 300  # 0.3.0, the version in which this series of the library begins

_NEXT_STEP = (
    "Install it with `make install-library` in the repository of swimtab, and run `ldconfig` once "
    "as root; or run `make library` there, and set SWIMTAB_LIB to the folder build or the file "
    "libswimtab.so in it."
)


def load() -> ctypes.CDLL:
    """The library that SWIMTAB_LIB names, or that the loader finds, or that of this repository."""
    named = os.environ.get("SWIMTAB_LIB")
    if named:
        return _checked(_load_file(_file_of(Path(named))))
    library = _load_installed()
    if library is None:
        built = _built_here()
        if built is None:
            raise ImportError(f"{SONAME} was not found. {_NEXT_STEP}")
        library = _load_file(built)
    return _checked(library)


def _file_of(named: Path) -> Path:
    """The library that SWIMTAB_LIB names: a file, or the folder that it is in."""
    for file in (named, named / SONAME, named / "libswimtab.so"):
        if file.is_file():
            return file
    raise ImportError(f"SWIMTAB_LIB names {named}, and there is no libswimtab.so. {_NEXT_STEP}")


def _built_here() -> Optional[Path]:
    """The library in build/ of the repository that this file is in, if it is in one."""
    root = Path(__file__).resolve().parent.parent.parent.parent
    built = root / "build" / "libswimtab.so"
    return built if (root / "include" / "swimtab.h").is_file() and built.is_file() else None


def _load_installed() -> Optional[ctypes.CDLL]:
    for name in _installed_names():
        try:
            return ctypes.CDLL(name)
        except OSError:
            continue
    return None


def _installed_names() -> Iterator[str]:
    """Names by which the loader may know the library; a name of another series is no such name."""
    yield SONAME
    found = ctypes.util.find_library("swimtab")
    if found is not None and found != SONAME and found.endswith(SONAME):
        yield found


def _load_file(file: Path) -> ctypes.CDLL:
    """Loads a file, if the name that it has for itself is that of the series."""
    try:
        if b"\0" + SONAME.encode() + b"\0" not in file.read_bytes():
            raise ImportError(f"{file} is not {SONAME}: it is of another version. {_NEXT_STEP}")
        return ctypes.CDLL(str(file.resolve()))
    except OSError as error:
        raise ImportError(f"{file} was not loaded: {error}. {_NEXT_STEP}") from error


def _checked(library: ctypes.CDLL) -> ctypes.CDLL:
    """Refuses a library that is too old."""
    try:
        version = library.swimtab_version
    except AttributeError:
        raise ImportError(f"libswimtab is older than 0.3. {_NEXT_STEP}") from None
    version.argtypes, version.restype = (), ctypes.c_uint32
    if version() < OLDEST:
        raise ImportError(f"libswimtab is older than 0.3: version {version()}. {_NEXT_STEP}")
    return library
