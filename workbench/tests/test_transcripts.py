"""The transcripts in examples/, run again. In one, a line with `$ ` is a command for sh in the root, and what follows is what it prints to
standard output and error; `[status N]` stands there where the status is not 0. What comes before the first command is a remark, and empty
lines before a command do not count. Whoever changes what is printed runs `python3 -m workbench.tests.test_transcripts --store` and reads
the difference."""

import subprocess
import sys
import unittest
from pathlib import Path

from workbench.library import ROOT

TRANSCRIPTS = sorted((ROOT / "examples").glob("*.transcript"))
PROMPT = "$ "


def remarks_and_steps(text: str) -> tuple[str, list[tuple[str, str]]]:
    """The remarks, and each command with what it printed."""
    remarks, *parts = ("\n" + text).split("\n" + PROMPT)
    steps = []
    for part in parts:
        command, _, printed = part.partition("\n")
        steps.append((command, printed.rstrip("\n")))
    return remarks.strip("\n"), steps


def run(command: str) -> str:
    done = subprocess.run(
        ["sh", "-c", command], cwd=ROOT, stdin=subprocess.DEVNULL, stdout=subprocess.PIPE, stderr=subprocess.STDOUT, check=False
    )
    status = f"[status {done.returncode}]" if done.returncode else ""
    return f"{done.stdout.decode()}{status}".rstrip("\n")


def stored(path: Path) -> str:
    """The transcript with what its commands print today."""
    remarks, steps = remarks_and_steps(path.read_text())
    blocks = [remarks] * bool(remarks) + [f"{PROMPT}{command}\n{run(command)}".rstrip("\n") for command, _ in steps]
    return "\n\n".join(blocks) + "\n"


class Transcripts(unittest.TestCase):
    maxDiff = None

    def test_there_are_some(self):
        self.assertGreaterEqual(len(TRANSCRIPTS), 5)

    def test_each_step(self):
        for path in TRANSCRIPTS:
            for command, printed in remarks_and_steps(path.read_text())[1]:
                with self.subTest(transcript=path.name, command=command):
                    self.assertEqual(run(command), printed)

    def test_each_pool_and_book_is_in_one(self):
        commands = "\n".join(path.read_text() for path in TRANSCRIPTS)
        for path in (ROOT / "examples").rglob("*"):
            if path.suffix in (".book", ".pool") and path.name != "house.book":
                with self.subTest(file=path.name):
                    self.assertIn(f"{path.relative_to(ROOT)}", commands)


if __name__ == "__main__" and "--store" in sys.argv:
    for each in TRANSCRIPTS:
        each.write_text(stored(each))
