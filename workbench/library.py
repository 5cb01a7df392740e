"""The proved library, called from Python. It is made of the crates where it is missing or older than their code."""

import ctypes
import errno
import fcntl
import os
import shutil
import subprocess
import threading
import time
from collections import deque
from collections.abc import Iterator, Sequence
from contextlib import contextmanager
from dataclasses import dataclass
from pathlib import Path

from workbench.mistake import Unusable
from workbench.output import say_wrong

ROOT = Path(__file__).resolve().parent.parent
LIBRARY = ROOT / "target" / "libshapes.so"
CRATE = ROOT / "crates" / "shapes"
ARCHIVE = CRATE / "out" / "libshapes.a"
MOST_LINES = 65_535
LAST_LINES_SHOWN = 10

BYTES = ctypes.POINTER(ctypes.c_uint8)
WORDS = ctypes.POINTER(ctypes.c_uint64)
BLOCKS = [BYTES, ctypes.c_size_t] * 3


@dataclass(frozen=True)
class Reply:
    """`words` has three for each of the lines, and none where there is no unfolding. `part` is 0 unless some part was asked about."""

    refusal: int
    verdict: int = 0
    facts: int = 0
    rounds: int = 0
    lines: int = 0
    words: tuple[int, ...] = ()
    part: int = 0


def decide(book: bytes, snapshot: bytes, question: bytes, lines: int, some_part: bool = False) -> Reply:
    """Asks the engine about the whole pool or about some part of it, and lends it a table of that many lines with the space for an
    unfolding."""
    if not 1 <= lines <= MOST_LINES:
        raise ValueError(f"lines: {lines} is not between 1 and {MOST_LINES}")
    table, space = (ctypes.c_uint64 * lines)(), (ctypes.c_uint64 * (3 * lines))()
    verdict, facts, rounds, written = (ctypes.c_uint64() for _ in range(4))
    part = ctypes.c_uint16()
    numbers = [verdict, part, facts, rounds, written] if some_part else [verdict, facts, rounds, written]
    lent = _blocks(book, snapshot, question) + [table, lines, space, 3 * lines] + [ctypes.byref(number) for number in numbers]
    refusal = _call(_loaded().shapes_part if some_part else _loaded().shapes_decide, lent)
    words = tuple(space[: 3 * written.value])
    return Reply(refusal, verdict.value, facts.value, rounds.value, written.value, words, part.value)


def check(book: bytes, snapshot: bytes, question: bytes, words: Sequence[int], part: int | None = None) -> tuple[int, int]:
    """The refusal, and 1 where the unfolding is taken: for this part, or without one for the whole pool."""
    taken = ctypes.c_uint64()
    # A pointer must not be null even where there is nothing behind it: hence one word at least.
    lent = [(ctypes.c_uint64 * max(1, len(words)))(*words), len(words), ctypes.byref(taken)]
    entry = _loaded().shapes_check if part is None else _loaded().shapes_check_part
    refusal = _call(entry, _blocks(book, snapshot, question) + ([] if part is None else [part]) + lent)
    return refusal, taken.value


def walk(book: bytes, snapshot: bytes, question: bytes) -> tuple[int, int]:
    """The refusal, 12 for a book that is not plain, and 1 where the quick walk finds that the whole pool fits. It needs no table."""
    verdict = ctypes.c_uint64()
    refusal = _call(_loaded().shapes_walk, _blocks(book, snapshot, question) + [ctypes.byref(verdict)])
    return refusal, verdict.value


def _blocks(*blocks: bytes) -> list:
    lent = []
    for block in blocks:
        lent += [(ctypes.c_uint8 * max(1, len(block)))(*block), len(block)]
    return lent


def _call(entry, lent: list) -> int:
    """Calls in a thread of its own, since Python looks at Ctrl-C only between its own steps and a long table takes a while."""
    results: list[int] = []
    thread = threading.Thread(target=lambda: results.append(entry(*lent)), daemon=True)
    thread.start()
    thread.join()
    return results[0]


_library: ctypes.CDLL | None = None


def _loaded() -> ctypes.CDLL:
    global _library
    if _library is None:
        if is_stale(LIBRARY, sources(ROOT)):
            make()
        _library = _declared(LIBRARY)
    return _library


def _declared(path: Path) -> ctypes.CDLL:
    try:
        if _is_cut(path):
            raise OSError("it is cut short")
        library = ctypes.CDLL(str(path))
        for entry, arguments in _entries(library):
            entry.argtypes, entry.restype = arguments, ctypes.c_uint64
    except (OSError, AttributeError) as fault:
        raise Unusable(f"cannot be used: {fault}; delete it, and it is made again", shown(path)) from fault
    return library


def _entries(library: ctypes.CDLL) -> list:
    """Each entry with what it takes, as include/shapes.h declares it."""
    words = [WORDS, ctypes.c_size_t]
    return [
        (library.shapes_decide, BLOCKS + words * 2 + [WORDS] * 4),
        (library.shapes_part, BLOCKS + words * 2 + [WORDS, ctypes.POINTER(ctypes.c_uint16)] + [WORDS] * 3),
        (library.shapes_check, BLOCKS + words + [WORDS]),
        (library.shapes_check_part, BLOCKS + [ctypes.c_uint16] + words + [WORDS]),
        (library.shapes_walk, BLOCKS + [WORDS]),
    ]


def _is_cut(path: Path) -> bool:
    """Whether the table that stands last in an ELF file is not all there. To load such a file may end this program without a word."""
    with open(path, "rb") as file:
        head = file.read(64)
    at, size, count = (int.from_bytes(head[low:high], "little") for low, high in ((40, 48), (58, 60), (60, 62)))
    return head[:4] == b"\x7fELF" and at + size * count > path.stat().st_size


def sources(root: Path) -> list[Path]:
    return sorted(root.glob("crates/*/src/*.rt"))


def is_stale(library: Path, code: list[Path]) -> bool:
    if not library.exists():
        return True
    made = library.stat().st_mtime
    return any(path.stat().st_mtime > made for path in code)


def make() -> None:
    """Proves the library and links it, unless another process is at it and does so."""
    for tool, advice in (("rt", "install the Rattle kit"), ("gcc", "install gcc (Debian: gcc)")):
        if shutil.which(tool) is None:
            raise Unusable(f"{tool} is not on the path, and {shown(LIBRARY)} is to be made: {advice}")
    try:
        with _alone() as lock:
            if is_stale(LIBRARY, sources(ROOT)):
                _make(lock)
    except OSError as fault:
        raise Unusable(f"cannot be made: {fault.strerror or fault}: see to {fault.filename or 'its directory'}", shown(LIBRARY)) from None


@contextmanager
def _alone() -> Iterator[int]:
    """Two at once would prove into the same folders, and each could find halves of the other's there: the second one waits."""
    folder = LIBRARY.parent
    folder.mkdir(exist_ok=True)
    # rt would fail after minutes, and not say why.
    if not os.access(folder, os.W_OK):
        raise PermissionError(errno.EACCES, os.strerror(errno.EACCES), str(folder))
    lock = os.open(folder, os.O_RDONLY)
    try:
        try:
            fcntl.flock(lock, fcntl.LOCK_EX | fcntl.LOCK_NB)
        except BlockingIOError:
            say_wrong(f"waiting: another ./shapes is making {shown(LIBRARY)}, which takes some minutes\n")
            fcntl.flock(lock, fcntl.LOCK_EX)
        yield lock
    finally:
        os.close(lock)


def _make(lock: int) -> None:
    """A new library takes the old one's place in one step, so that no program loads half a file."""
    say_wrong(f"making {shown(LIBRARY)}: the library is proved first, which takes some minutes\n")
    started = time.time()
    _run(["rt", "lib"], CRATE, lock)
    made = LIBRARY.with_name(f"libshapes.{os.getpid()}.so")
    try:
        _run(["gcc", "-shared", "-Wl,--whole-archive", str(ARCHIVE), "-Wl,--no-whole-archive", "-o", str(made)], ROOT, lock)
        # It is as old as the code that it was made of: what was changed meanwhile is newer.
        os.utime(made, (started, started))
        made.rename(LIBRARY)
    finally:
        made.unlink(missing_ok=True)


def _run(command: list[str], folder: Path, lock: int) -> None:
    """Passes on what rt says about each crate, so that one sees how far it is. The tool has the lock too, since it may outlive us."""
    others: deque[str] = deque(maxlen=LAST_LINES_SHOWN)
    child = subprocess.Popen(
        command, cwd=folder, stdin=subprocess.DEVNULL, stdout=subprocess.PIPE, stderr=subprocess.STDOUT, pass_fds=(lock,)
    )
    with child:
        try:
            for line in child.stdout or ():
                text = line.decode(errors="replace").rstrip()
                if text.startswith(("rt: ", "crate ")):
                    say_wrong(f"  {text}\n")
                else:
                    others.append(text)
        except BaseException:
            child.kill()
            raise
    if child.returncode:
        say_wrong("\n".join(["...", *others, ""]))
        raise Unusable(f"`{' '.join(command[:3])}` failed with status {child.returncode}: correct what it says above, and ask again")


def shown(path: Path) -> str:
    return str(path.relative_to(ROOT)) if path.is_relative_to(ROOT) else str(path)
