"""What is printed and written: answers to standard output or to a file, complaints to standard error. Neither a closed pipe nor a full disk
ends in a traceback, and a file is written whole or not at all."""

import os
import sys

from workbench.mistake import Mistake, printable
from workbench.sources import source_name


def say(text: str) -> None:
    """To standard output. Where nobody reads that any more, as after `| head -1`, the answer still decides the status."""
    say_bytes(text.encode(errors="backslashreplace"))


def is_terminal() -> bool:
    return sys.stdout is not None and sys.stdout.isatty()


def say_bytes(data: bytes) -> None:
    if sys.stdout is None:
        raise Mistake("there is no standard output to write to")
    try:
        sys.stdout.flush()
        sys.stdout.buffer.write(data)
        sys.stdout.buffer.flush()
    except BrokenPipeError:
        _to_nowhere(sys.stdout)
    except OSError as fault:
        _to_nowhere(sys.stdout)
        raise Mistake(f"standard output cannot be written: {fault.strerror}") from None


def _to_nowhere(stream) -> None:
    nowhere = os.open(os.devnull, os.O_WRONLY)
    os.dup2(nowhere, stream.fileno())
    os.close(nowhere)


def say_wrong(text: str) -> None:
    if sys.stderr is None:
        return
    try:
        sys.stderr.write(text)
        sys.stderr.flush()
    except OSError:
        _to_nowhere(sys.stderr)


def complain(mistake: Mistake | str) -> None:
    if isinstance(mistake, str):
        say_wrong(f"shapes: {printable(mistake)}\n")
    else:
        say_wrong(f"{mistake}\n" if mistake.source else f"shapes: {mistake}\n")


def flush() -> None:
    """Python itself would complain at the end about what could not be written."""
    for stream in filter(None, (sys.stdout, sys.stderr)):
        try:
            stream.flush()
        except OSError:
            _to_nowhere(stream)


def write_file(path: str, data: bytes) -> None:
    if path == "-":
        raise Mistake("- is no file to write to: name one, or ./- if that is its name")
    try:
        if _is_replaceable(path):
            _replace(path, data)
        else:
            with open(path, "wb") as file:
                file.write(data)
    except FileNotFoundError:
        raise Mistake("cannot be written: there is no such directory", source_name(path)) from None
    except (OSError, ValueError) as fault:
        raise Mistake(f"cannot be written: {getattr(fault, 'strerror', None) or fault}", source_name(path)) from None


def _is_replaceable(path: str) -> bool:
    """Whether a new file can take this one's place: no device, no link, nothing that may not be written."""
    folder, name = os.path.split(path)
    free = not os.path.lexists(path) or (os.path.isfile(path) and not os.path.islink(path) and os.access(path, os.W_OK))
    return bool(name) and free and os.access(folder or ".", os.W_OK)


def _replace(path: str, data: bytes) -> None:
    """In one step: where the disk is full there is no half of it, and what was there before stays."""
    part = os.path.join(os.path.dirname(path), f".shapes.{os.getpid()}.part")
    file = open(part, "xb")
    try:
        with file:
            file.write(data)
        if os.path.exists(path):
            os.chmod(part, os.stat(path).st_mode & 0o7777)
        os.replace(part, path)
    except BaseException:
        os.unlink(part)
        raise
