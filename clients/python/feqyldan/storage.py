"""Reads and writes whole files. A file that is written is complete, or as it was before."""

from __future__ import annotations

import contextlib
import errno
import os
import re
import secrets
import stat
from typing import Any, Iterator, List, Sequence, Tuple, Union

from .errors import BadPicture, Closed, Refused

Path = Union[str, "os.PathLike[str]"]
# The most bytes of a file that is read: more than any picture for an image has.
GREATEST_FILE = 1 << 29
# The most bytes of the name of a file in its folder.
MOST_NAME = 255


def name_of_file(path: Any) -> str:
    """Returns a path as text. Raises TypeError or ValueError if the value is no path."""
    try:
        name = os.fsdecode(path)
    except TypeError:
        raise TypeError(f"a path must be text, bytes or an os.PathLike, not {type(path).__name__}: "
                        "where a file is written, the path comes before the picture") from None
    if "\0" in name:
        raise ValueError(f"a path has no byte 0, and this one begins with {name[:20]!r}: give the "
                         "path of the file, not its bytes")
    return name


def fault_of_name(name: str) -> str:
    """Returns in words why a file in a folder can't have a name, or a name with this part; empty if
    it can."""
    try:
        code = os.fsencode(name)
    except UnicodeEncodeError:
        code = b"\0"
    if b"\0" in code:
        return "has a character that a file name can't have"
    if "/" in name:
        return 'has a "/"'
    count = len(code)
    return f"has {count} bytes, and a file name at most {MOST_NAME}" if count > MOST_NAME else ""


def cause_of(error: Exception) -> str:
    """Returns the words of an error. Those of the system's errors are the file and the cause."""
    if isinstance(error, OSError) and error.filename is not None:
        return f"{os.fsdecode(error.filename)}: {error.strerror}"
    return str(error)


def natural(path: str) -> Tuple[List[Union[str, int]], str]:
    """Returns the sort key of a path: numbers in it sort by value, so f2 comes before f10."""
    parts = re.split("([0-9]+)", path)
    return [int(part) if at % 2 else part for at, part in enumerate(parts)], path


def read_bytes(path: Path, most: int = GREATEST_FILE) -> bytes:
    """Returns the bytes of a file. Raises OSError, which names the file, if it can't be read, isn't
    a regular file, or has more than `most` bytes."""
    name = name_of_file(path)
    # A named pipe isn't opened, since that would wait for somebody to write to it.
    _check(os.stat(name), name, most)
    with open(name, "rb") as file:
        _check(os.fstat(file.fileno()), name, most)
        return file.read()


def _check(there: os.stat_result, name: str, most: int) -> None:
    if stat.S_ISDIR(there.st_mode):
        raise IsADirectoryError(errno.EISDIR, os.strerror(errno.EISDIR), name)
    if not stat.S_ISREG(there.st_mode):
        raise OSError(errno.EINVAL, "it isn't a regular file: copy its bytes to one", name)
    if there.st_size > most:
        raise OSError(errno.EFBIG, f"it has {there.st_size:,} bytes, and at most {most:,} are read",
                      name)


def write_bytes(path: Path, parts: Sequence[Any]) -> None:
    """
    Replaces a file by the bytes of these parts. They are written to a new file in the same folder,
    which gets the name when it is complete and on the disk. So if the disk is full, the old file
    stays. Raises OSError, which names the file.
    """
    name = name_of_file(path)
    # A symbolic link stays, and its target is replaced.
    target = os.path.realpath(name)
    try:
        if os.path.exists(name) and not os.path.isfile(name):
            # A device or a pipe can't be replaced. A pipe at /dev/stdout has no other name.
            with open(name, "wb") as file:
                file.writelines(parts)
            return
        _replace(target, parts)
    except OSError as error:
        raise type(error)(error.errno, error.strerror, name) from None


def _replace(target: str, parts: Sequence[Any]) -> None:
    """Writes a new file, and gives it the name and the mode of a target."""
    temporary = os.path.join(os.path.dirname(target), f".feqyldan-{secrets.token_hex(8)}")
    _check_writable(target)
    try:
        try:
            _write_new(temporary, target, parts)
            os.replace(temporary, target)
        except BaseException:
            _remove(temporary)
            raise
    except BaseException:
        # After an error of the disk, the first removal may have been interrupted.
        _remove(temporary)
        raise


def _write_new(temporary: str, target: str, parts: Sequence[Any]) -> None:
    """Writes a new file, with the mode of the target if there is one."""
    with open(temporary, "xb") as file:
        if os.path.exists(target):
            os.fchmod(file.fileno(), stat.S_IMODE(os.stat(target).st_mode))
        file.writelines(parts)
        file.flush()
        os.fsync(file.fileno())
        if os.fstat(file.fileno()).st_size != sum(map(len, parts)):
            raise OSError(errno.EIO, "the disk didn't take all bytes")


def _remove(path: str) -> None:
    with contextlib.suppress(OSError):
        os.unlink(path)


def _check_writable(path: str) -> None:
    """Raises PermissionError for a file that is write-protected."""
    if os.path.exists(path) and not os.access(path, os.W_OK):
        raise PermissionError(errno.EACCES, os.strerror(errno.EACCES), path)


def remove_result(path: str) -> None:
    """Removes a file that write_bytes() would replace, if there is one. Raises OSError, which names
    the file, if it is write-protected or can't be removed."""
    _check_writable(path)
    with contextlib.suppress(FileNotFoundError):
        os.unlink(path)


@contextlib.contextmanager
def naming(path: str) -> Iterator[None]:
    """Yields once; errors about a picture within the `with` name its file."""
    try:
        yield
    except Refused as refused:
        raise refused.in_words(f"{path}: {refused.request}") from None
    except (BadPicture, ImportError, ValueError) as error:
        kind = type(error) if isinstance(error, (BadPicture, Closed, ImportError)) else ValueError
        raise kind(f"{path}: {error}") from None
