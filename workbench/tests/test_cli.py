"""The command as a user runs it, where a transcript cannot say it: closed pipes, Ctrl-C, rubbish, JSON. Whatever happens there is a status
of 0, 1 or 2 and no traceback."""

import json
import os
import pty
import random
import signal
import subprocess
import sys
import tempfile
import time
import unittest
from contextlib import redirect_stderr, redirect_stdout
from io import BytesIO, StringIO, TextIOWrapper
from pathlib import Path
from unittest import mock

from workbench import ask_verb, cli, library
from workbench.library import ROOT
from workbench.mistake import Unusable
from workbench.tests.engine_samples import TWO_WORDS
from workbench.unfolding import words_to_bytes

COMMAND = str(ROOT / "shapes")
TREE = ("examples/tree.book", "examples/tree.pool", "tree(10)")


def shapes(*arguments: str, given: bytes = b"", **more) -> subprocess.CompletedProcess:
    return subprocess.run([COMMAND, *arguments], cwd=ROOT, input=given, capture_output=True, check=False, timeout=60, **more)


def heed_ctrl_c() -> None:
    """What was started in the background ignores it, and so would all that the tests start."""
    signal.signal(signal.SIGINT, signal.SIG_DFL)


def run_inside(*arguments: str) -> tuple[int, bytes, str]:
    """The status, and what was printed to standard output and error, in this process."""
    out, said = TextIOWrapper(BytesIO()), StringIO()
    with redirect_stdout(out), redirect_stderr(said):
        try:
            status = cli.main(arguments)
        except SystemExit as end:
            status = end.code
    out.flush()
    return status, out.buffer.getvalue(), said.getvalue()


class Outside(unittest.TestCase):
    """In a process of its own."""

    def test_from_another_directory(self):
        files = [str(ROOT / "examples" / name) for name in ("segment.book", "circle.pool")]
        with tempfile.TemporaryDirectory() as folder:
            done = subprocess.run([COMMAND, "ask", *files, "segment(10, 10)"], cwd=folder, capture_output=True, check=False)
        self.assertEqual((done.returncode, done.stdout.splitlines()[0], done.stderr), (0, b"fits", b""))

    def test_by_way_of_a_link_and_with_python_set_otherwise(self):
        with tempfile.TemporaryDirectory() as folder:
            link = Path(folder) / "link"
            link.symlink_to(COMMAND)
            for name, value in (("PYTHONSAFEPATH", "1"), ("PYTHONOPTIMIZE", "2"), ("PYTHONIOENCODING", "ascii"), ("LC_ALL", "C")):
                with self.subTest(name=name):
                    arguments = [str(link), "ask", "house", str(ROOT / "examples/ring.pool"), "ring(0x10)"]
                    done = subprocess.run(arguments, cwd=folder, env=os.environ | {name: value}, capture_output=True, check=False, timeout=60)
                    self.assertEqual((done.returncode, done.stdout[:5], done.stderr), (0, b"fits\n", b""))

    def test_closed_pipe_keeps_the_status_of_the_answer(self):
        for question, status in (("tree(10)", 0), ("tree(20)", 1)):
            read, write = os.pipe()
            os.close(read)
            with self.subTest(question=question), os.fdopen(write, "wb") as pipe:
                done = subprocess.run(
                    [COMMAND, "ask", *TREE[:2], question], cwd=ROOT, stdout=pipe, stderr=subprocess.PIPE, check=False, timeout=60
                )
                self.assertEqual((done.returncode, done.stderr), (status, b""))

    def test_help_into_a_closed_pipe(self):
        for arguments in ("--help", "ask --help"):
            line = f"{COMMAND} {arguments} | head -1"
            done = subprocess.run(["bash", "-c", line], cwd=ROOT, capture_output=True, check=False, timeout=60)
            self.assertEqual((done.returncode, done.stderr), (0, b""))

    def test_output_closed_or_full(self):
        for redirection in (">&-", "> /dev/full"):
            with self.subTest(redirection=redirection):
                for verb in (f"ask {TREE[0]} {TREE[1]} '{TREE[2]}'", "encode book house", "ask --help", "--help"):
                    line = f"{COMMAND} {verb} {redirection}"
                    done = subprocess.run(["sh", "-c", line], cwd=ROOT, capture_output=True, check=False, timeout=60)
                    self.assertEqual(done.returncode, 2)
                    self.assertRegex(done.stderr, rb"^shapes: [^\n]*standard output[^\n]*\n$")

    def test_input_and_error_closed(self):
        for redirection, status in (("<&-", 2), ("2>&- < /dev/null", 2)):
            with self.subTest(redirection=redirection):
                line = f"{COMMAND} ask house - 'ring(1)' {redirection}"
                done = subprocess.run(["sh", "-c", line], cwd=ROOT, capture_output=True, check=False, timeout=60)
                self.assertEqual((done.returncode, done.stdout), (status, b""))
                self.assertNotIn(b"Traceback", done.stderr)

    def test_stopped(self):
        arguments = [COMMAND, "ask", "house", "-", "ring(1)"]
        pipes = dict.fromkeys(("stdin", "stdout", "stderr"), subprocess.PIPE)
        child = subprocess.Popen(arguments, cwd=ROOT, preexec_fn=heed_ctrl_c, **pipes)
        time.sleep(2)  # so that it waits for standard input by then
        child.send_signal(signal.SIGINT)
        said = child.communicate(timeout=60)
        self.assertEqual((child.returncode, *said), (2, b"", b"shapes: stopped\n"))

    def test_stopped_inside_the_library(self):
        code = (
            "import os, signal, sys, threading, time; from workbench import cli, library\n"
            "class Slow:\n"
            "    def shapes_decide(self, *lent): threading.Timer(0.3, os.kill, (os.getpid(), signal.SIGINT)).start(); time.sleep(30)\n"
            "library._loaded = Slow\n"
            f"sys.exit(cli.main(['ask', *{TREE!r}]))\n"
        )
        started = time.monotonic()
        done = subprocess.run([sys.executable, "-c", code], cwd=ROOT, preexec_fn=heed_ctrl_c, capture_output=True, check=False, timeout=60)
        self.assertEqual((done.returncode, done.stdout, done.stderr), (2, b"", b"shapes: stopped\n"))
        self.assertLess(time.monotonic() - started, 15)

    def test_bytes_by_way_of_standard_input(self):
        done = shapes("encode", "snapshot", "-", given=b"10: 20\n20: 10\n")
        self.assertEqual(done.stdout, bytes.fromhex("02 0A000000 01 14000000 14000000 01 0A000000"))

    def test_base_sixteen_on_a_terminal(self):
        ours, theirs = pty.openpty()
        self.addCleanup(os.close, ours)
        subprocess.run([COMMAND, "encode", "question", "house", "ring(1)"], cwd=ROOT, stdout=theirs, check=True, timeout=60)
        os.close(theirs)
        self.assertEqual(os.read(ours, 100), b"01 01 01 00 00 00\r\n")

    def test_names_that_are_no_utf8(self):
        done = shapes("ask", "house", b"\xff\xfe.pool", "ring(1)")
        self.assertEqual((done.returncode, done.stdout), (2, b""))
        self.assertNotIn(b"Traceback", done.stderr)
        done = shapes("ask", "house", b"\xff.pool", "ring(1)", "--json")
        self.assertEqual(json.loads(done.stdout)["results"][0]["pool"], "\ufffd.pool")


class Inside(unittest.TestCase):
    """In this process, which is faster."""

    def setUp(self):
        self.enterContext(mock.patch.object(os, "environ", os.environ | {"COLUMNS": "120"}))
        before = os.getcwd()
        os.chdir(ROOT)
        self.addCleanup(os.chdir, before)
        folder = tempfile.TemporaryDirectory()
        self.addCleanup(folder.cleanup)
        self.folder = Path(folder.name)

    run_verb = staticmethod(run_inside)

    def test_help(self):
        for arguments in (["--help"], ["help"], *([verb, "--help"] for verb in cli.VERBS)):
            with self.subTest(arguments=arguments):
                status, out, said = self.run_verb(*arguments)
                self.assertEqual((status, said), (0, ""))
                self.assertIn(b"Example:\n  ./shapes ", out)
                self.assertLessEqual(len(out.splitlines()), 22)

    def test_options_anywhere(self):
        for i in range(4):
            arguments = ["house", "examples/ring.pool", "ring(0x10)"]
            arguments.insert(i, "--json")
            with self.subTest(place=i):
                status, out, _ = self.run_verb("ask", *arguments)
                self.assertEqual((status, json.loads(out)["results"][0]["answer"]), (0, "fits"))

    def test_json_of_several_pools(self):
        pools = ["examples/ring.pool", "examples/queue.pool", "examples/mistakes/same-address.pool"]
        status, out, said = self.run_verb("ask", "house", *pools, "ring(0x10)", "--json")
        self.assertEqual(status, 2)
        results = json.loads(out)["results"]
        self.assertEqual([result["pool"] for result in results], pools)
        self.assertEqual([result["answer"] for result in results], ["fits", "does not fit", "not read"])
        self.assertIn("is on line 1 already", said)

    def test_json_where_nothing_can_be_asked(self):
        """There is an object with all keys, and each pool has the message."""
        pools = ["examples/ring.pool", "examples/queue.pool"]
        for book, question, words in (
            ("no-such-file", "ring(1)", "there is no such file"),
            ("examples/mistakes/no-arrow.book", "ring(1)", "is missing before segment"),
            ("house", "rign(1)", "did you mean ring?"),
            ("-", "ring(1)", "only one of the files can be -"),
        ):
            with self.subTest(book=book, question=question):
                files = ["-", *pools] if book == "-" else pools
                status, out, said = self.run_verb("ask", book, *files, question, "--json")
                whole = json.loads(out)
                self.assertEqual((status, whole["question"]), (2, None))
                self.assertEqual([result["answer"] for result in whole["results"]], ["not read"] * len(files))
                for result in whole["results"]:
                    self.assertIn(words, result["message"])
                self.assertEqual(said.count(words), 1)

    def test_no_library(self):
        """It is looked for once, and not for each pool."""
        pools = ("examples/ring.pool", "examples/queue.pool")
        with mock.patch.object(library, "_loaded", side_effect=Unusable("rt is not on the path")) as looked_for:
            self.assertEqual(self.run_verb("ask", "house", *pools, "ring(0x10)"), (2, b"", "shapes: rt is not on the path\n"))
            self.assertEqual(looked_for.call_count, 1)
            status, out, said = self.run_verb("ask", "house", *pools, "ring(0x10)", "--json")
        self.assertEqual((status, said), (2, "shapes: rt is not on the path\n"))
        whole = json.loads(out)
        self.assertEqual(whole["question"], {"predicate": "ring", "values": [16]})
        self.assertEqual([(result["answer"], result["message"]) for result in whole["results"]], [("not read", "rt is not on the path")] * 2)

    def test_names_that_would_break_a_row(self):
        pools = []
        for name in ("new\nline", "esc\x1b[31m", "plain"):
            pools.append(self.folder / name)
            pools[-1].write_text("10: 10\n")
        status, out, _ = self.run_verb("ask", "house", *map(str, pools), "ring(10)")
        self.assertEqual((status, len(out.splitlines())), (0, 4))
        self.assertNotIn(b"\x1b", out)

    def test_a_file_for_the_question(self):
        status, _, said = self.run_verb("ask", "house", "ring(0x10)", "examples/ring.pool")
        self.assertEqual(status, 2)
        self.assertIn("examples/ring.pool: this is a file where a question", said)

    def test_statuses_of_ask(self):
        fits, does_not, wrong = "examples/ring.pool", "examples/queue.pool", "examples/mistakes/same-address.pool"
        for pools, due in (
            ((fits,), 0),
            ((fits, fits), 0),
            ((does_not,), 1),
            ((fits, does_not), 1),
            ((wrong,), 2),
            ((does_not, wrong, fits), 2),
        ):
            with self.subTest(pools=pools):
                self.assertEqual(self.run_verb("ask", "house", *pools, "ring(0x10)")[0], due)

    def test_statuses_of_ask_about_a_part(self):
        whole, some, none = "examples/ring.pool", "examples/foreign.pool", "examples/circle.pool"
        wrong = "examples/mistakes/same-address.pool"
        for pools, due in (
            ((whole,), 0),
            ((some,), 0),
            ((whole, some), 0),
            ((none,), 1),
            ((whole, none, some), 1),
            ((none, wrong, some), 2),
        ):
            with self.subTest(pools=pools):
                self.assertEqual(self.run_verb("ask", "--part", "house", *pools, "segment(0x10, 0x20)")[0], due)
                self.assertEqual(self.run_verb("ask", "--part", "--json", "house", *pools, "segment(0x10, 0x20)")[0], due)

    def test_json_tells_what_was_asked(self):
        asked = ("house", "examples/foreign.pool", "segment(0x10, nil)", "--json")
        status, out, _ = self.run_verb("ask", *asked)
        whole, result = json.loads(out), json.loads(out)["results"][0]
        self.assertEqual((status, whole["about"], result["answer"], result["part"]), (1, "whole", "does not fit", None))
        self.assertEqual(result["hints"]["part"], {"fits": True, "records": [16, 32, 48], "left_out": [64, 72, 96]})
        status, out, _ = self.run_verb("ask", "--part", *asked)
        whole, result = json.loads(out), json.loads(out)["results"][0]
        self.assertEqual((status, whole["about"], result["answer"], result["hints"]["part"]), (0, "part", "fits", None))
        self.assertEqual(result["part"], {"records": [16, 32, 48], "left_out": [64, 72, 96]})
        status, out, _ = self.run_verb("ask", "--part", "house", "no-such-file", "ring(1)", "--json")
        self.assertEqual((status, json.loads(out)["about"], json.loads(out)["results"][0]["part"]), (2, "part", None))

    def offered(self, out: bytes) -> str:
        (row,) = [row for row in out.decode().splitlines() if row.startswith("  its unfolding ")]
        return row.removeprefix("  its unfolding ").strip()

    def test_the_command_offered_shows_the_part(self):
        """Whatever the files are called."""
        for name in ("plain", "two words", "it's", 'a "b" $HOME `c` \\', "ä*?", "-dash"):
            path = self.folder / name
            path.write_text("10: 20\n20: 10\n")
            os.chdir(self.folder)
            with self.subTest(name=name):
                status, out, _ = self.run_verb("ask", "house", "--", name, "segment(10, 20)")
                self.assertEqual(status, 1)
                os.chdir(ROOT)
                line = self.offered(out).replace("./shapes", COMMAND)
                done = subprocess.run(["sh", "-c", line], cwd=self.folder, capture_output=True, check=False, timeout=60)
                self.assertEqual((done.returncode, done.stdout[:12], done.stderr), (0, b"a part fits\n", b""))

    def test_the_command_offered_for_standard_input_and_for_names_that_do_not_print(self):
        given = mock.Mock(buffer=BytesIO(b"10: 20\n20: 10\n"))
        with mock.patch.object(sys, "stdin", given):
            _, out, _ = self.run_verb("ask", "house", "-", "segment(10, 20)")
        self.assertEqual(self.offered(out), "./shapes ask --part house - 'segment(10, 20)'  # with the same standard input")
        pool = self.folder / "new\nline"
        pool.write_text("10: 20\n20: 10\n")
        self.assertEqual(self.offered(self.run_verb("ask", "house", str(pool), "segment(10, 20)")[1]), "ask the same with --part")

    def test_the_answer_does_not_wait_for_the_part(self):
        with mock.patch.object(ask_verb, "ask_next", side_effect=KeyboardInterrupt):
            status, out, said = self.run_verb("ask", "house", "examples/circle.pool", "segment(10, 20)")
        self.assertEqual((status, out.splitlines()[0]), (2, b"does not fit"))
        self.assertEqual(said, "shapes: stopped while asking about some part: the answer above holds\n")

    def test_rows_ask_about_no_part_by_themselves(self):
        with mock.patch.object(library, "decide", side_effect=library.decide) as decided:
            self.run_verb("ask", "house", "examples/circle.pool", "examples/foreign.pool", "segment(10, 20)")
        self.assertEqual([call.args[-1] for call in decided.mock_calls], [False, False])

    def test_nothing_to_save(self):
        path, cut = self.folder / "unfolding", self.folder / "cut"
        cut.write_bytes(bytes.fromhex("01 02 00 02 00"))
        for book, part, status, reason in (
            ("house", [], 1, "the pool does not fit"),
            ("house", ["--part"], 1, "no part fits"),
            (str(cut), ["--part"], 2, "the engine refuses this"),
        ):
            with self.subTest(reason=reason):
                got, _, said = self.run_verb("ask", *part, book, "examples/ring.pool", "segment(0x10, nil)", "--save", str(path))
                self.assertEqual((got, said), (status, f"shapes: nothing is written to {path}: {reason}\n"))
                self.assertFalse(path.exists())

    def test_refused_bytes(self):
        book = self.folder / "cut"
        book.write_bytes(bytes.fromhex("01 02 00 02 00"))
        status, out, said = self.run_verb("ask", str(book), "examples/ring.pool", "whatever(1)")
        self.assertEqual((status, said), (2, ""))
        self.assertRegex(out, rb"^refusal 1: ")
        saved, picture = "examples/ring.pool", str(self.folder / "a.dot")
        for verb in (
            ["check", "QUESTION", saved],
            ["check", "QUESTION", saved, "--part", "emp"],
            ["draw", "QUESTION", "-o", picture],
            ["draw", "QUESTION", "-o", picture, "--part"],
            ["ask", "QUESTION", "--part"],
            ["ask", "QUESTION", "--walk"],
        ):
            status, out, _ = self.run_verb(verb[0], str(book), "examples/ring.pool", *verb[1:])
            self.assertEqual((status, out[:10]), (2, b"refusal 1:"))
            self.assertIn(b"\n  byte 5 of the book: ", out)
        self.assertFalse((self.folder / "a.dot").exists())

    def test_refused_pool_among_others(self):
        pool = self.folder / "pool"
        pool.write_bytes(bytes.fromhex("02 14000000 00 0A000000 00"))
        status, out, _ = self.run_verb("ask", "house", "examples/ring.pool", str(pool), "ring(0x10)")
        self.assertEqual(status, 2)
        self.assertIn(b"refusal 7: ", out.splitlines()[1])
        self.assertEqual(out.splitlines()[2], b"2 pools: 1 fits, 1 refused")
        # No address can be looked for in it.
        status, out, _ = self.run_verb("check", "house", str(pool), "ring(0x10)", str(pool), "--part", "0x10")
        self.assertEqual((status, out[:10]), (2, b"refusal 7:"))

    def test_saved_unfolding_damaged_in_every_byte(self):
        saved = self.folder / "unfolding"
        asked = ("house", "examples/ring.pool", "ring(0x10)")
        self.assertEqual(self.run_verb("ask", *asked, "--save", str(saved))[0], 0)
        whole = saved.read_bytes()
        self.assertEqual(self.run_verb("check", *asked, str(saved))[:2], (0, b"taken\n"))
        for i in range(len(whole)):
            saved.write_bytes(whole[:i] + bytes([whole[i] ^ 0x55]) + whole[i + 1 :])
            status, out, said = self.run_verb("check", *asked, str(saved))
            with self.subTest(byte=i):
                self.assertEqual((status, said), (1, ""))
                self.assertRegex(out, rb"^not taken\n  .+\n$")
        for cut in (0, 1, 8, 16, 24):
            saved.write_bytes(whole[:cut])
            self.assertEqual(self.run_verb("check", *asked, str(saved))[0], 1)

    def test_saved_unfolding_of_a_part(self):
        saved = self.folder / "unfolding"
        asked = ("house", "examples/foreign.pool", "segment(0x10, nil)")
        advice = "check it with --part 0x10,0x20,0x30"
        self.assertEqual(self.run_verb("ask", "--part", *asked, "--save", str(saved))[0], 0)
        for part, due in (
            (["--part", "0x10,0x20,0x30"], "taken\n"),
            (["--part", "48, 16, 32"], "taken\n"),
            ([], f"not taken\n  it holds for the part 0x10, 0x20, 0x30 and not for the whole pool: {advice}\n"),
            (["--part", "0x10,0x20"], f"not taken\n  it holds for the part 0x10, 0x20, 0x30 and not for the part given: {advice}\n"),
            (["--part", "emp"], f"not taken\n  it holds for the part 0x10, 0x20, 0x30 and not for the part given: {advice}\n"),
        ):
            with self.subTest(part=part):
                status = 0 if due == "taken\n" else 1
                self.assertEqual(self.run_verb("check", *asked, str(saved), *part), (status, due.encode(), ""))
        status, _, said = self.run_verb("check", *asked, str(saved), "--part", "0x10,", "0x20,", "0x30")
        self.assertEqual((status, "write addresses without spaces, such as 10,20\n" in said), (2, True))
        status, out, said = self.run_verb("check", *asked, str(saved), "--part", "0x10,0x50")
        self.assertEqual((status, out), (2, b""))
        self.assertTrue(said.startswith("part:1:6: the pool has no record at 0x50: its records are 0x10, 0x20, 0x30, 0x40, 0x48, 0x60\n"))
        # Nobody is sent to a part for which it does not hold either.
        saved.write_bytes(saved.read_bytes()[:-8] + bytes(8))
        self.assertRegex(self.run_verb("check", *asked, str(saved))[1], b"^not taken\n  its lines can be read, but ")

    def test_saved_unfolding_of_the_empty_part_and_of_the_whole_pool(self):
        saved = self.folder / "unfolding"
        for question, part, advice in (
            ("segment(0x10, 0x10)", [], "it holds for the empty part and not for the whole pool: check it with --part emp"),
            ("ring(0x10)", ["--part", "0x10"], "it holds for the whole pool and not for the part given: check it without --part"),
        ):
            with self.subTest(question=question):
                asked = ("house", "examples/ring.pool", question)
                self.assertEqual(self.run_verb("ask", "--part", *asked, "--save", str(saved))[0], 0)
                self.assertEqual(self.run_verb("check", *asked, str(saved), *part)[:2], (1, f"not taken\n  {advice}\n".encode()))
                right = [] if part else ["--part", "emp"]
                self.assertEqual(self.run_verb("check", *asked, str(saved), *right)[:2], (0, b"taken\n"))

    def test_the_longest_unfolding(self):
        first, second, third = TWO_WORDS[:3], TWO_WORDS[3:6], TWO_WORDS[6:8]
        asked = ("examples/segment.book", "examples/circle.pool", "segment(10, 10)")
        for lines, due in ((65_535, (0, b"taken\n")), (65_536, (1, b"not taken\n  it has more than 65,535 lines\n"))):
            words = first * (lines - 2) + second + third + (1 | (lines - 1) << 8,)
            saved = self.folder / "unfolding"
            saved.write_bytes(words_to_bytes(words))
            with self.subTest(lines=lines):
                self.assertEqual(self.run_verb("check", *asked, str(saved))[:2], due)
        saved.write_bytes(bytes(2**22 + 1))
        self.assertEqual(self.run_verb("check", *asked, str(saved))[0], 2)

    def test_nowhere_to_write(self):
        asked = ("house", "examples/ring.pool", "ring(0x10)")
        for arguments in (("draw", *asked, "-o"), ("encode", "book", "house", "-o")):
            for path in ("/no/such/folder/a.dot", str(self.folder), ""):
                with self.subTest(verb=arguments[0], path=path):
                    status, out, said = self.run_verb(*arguments, path)
                    self.assertEqual((status, out), (2, b""))
                    self.assertTrue(said)

    def test_an_unfolding_that_cannot_be_saved(self):
        """The answer is shown all the same."""
        for path in ("/no/such/folder/a", str(self.folder), "", "/dev/full"):
            with self.subTest(path=path):
                asked = ("ask", "house", "examples/ring.pool", "ring(0x10)", "--save", path)
                status, out, said = self.run_verb(*asked)
                self.assertEqual((status, out[:5]), (2, b"fits\n"))
                self.assertIn("cannot be written: ", said)
                status, out, said = self.run_verb(*asked, "--json")
                self.assertEqual((status, json.loads(out)["results"][0]["answer"]), (2, "fits"))
                self.assertIn("cannot be written: ", said)

    def test_a_file_is_written_whole_or_not_at_all(self):
        path = self.folder / "bytes"
        path.write_bytes(b"before")
        path.chmod(0o640)
        with mock.patch.object(os, "replace", side_effect=OSError(28, "No space left on device")):
            self.assertEqual(self.run_verb("encode", "book", "house", "-o", str(path))[0], 2)
        self.assertEqual((path.read_bytes(), os.listdir(self.folder)), (b"before", ["bytes"]))
        self.assertEqual(self.run_verb("encode", "question", "house", "ring(1)", "-o", str(path))[0], 0)
        self.assertEqual((path.read_bytes().hex(), os.listdir(self.folder)), ("010101000000", ["bytes"]))
        self.assertEqual(path.stat().st_mode & 0o777, 0o640)

    def test_a_line_for_the_name_of_a_file(self):
        self.assertEqual(self.run_verb("encode", "question", "house", "ring(1)", "-o", "-")[:2], (0, bytes.fromhex("010101000000")))
        status, out, said = self.run_verb("ask", "house", "examples/ring.pool", "ring(0x10)", "--save", "-")
        self.assertEqual((status, out[:5]), (2, b"fits\n"))
        self.assertIn("name one", said)
        self.assertFalse(os.path.exists("-"))

    def test_what_is_behind_a_link_is_written_in_its_place(self):
        """As /dev/stdout, which leads to where the output of other programs goes too."""
        file, link = self.folder / "file", self.folder / "link"
        file.write_bytes(b"before")
        link.symlink_to(file)
        self.assertEqual(self.run_verb("encode", "question", "house", "ring(1)", "-o", str(link))[0], 0)
        self.assertTrue(link.is_symlink())
        self.assertEqual(file.read_bytes().hex(), "010101000000")

    def test_wrong_numbers_of_arguments(self):
        for verb in cli.VERBS:
            for arguments in ([], ["a"], ["book"], ["bench"] * 9, ["--no-such-option"]):
                with self.subTest(verb=verb, arguments=arguments):
                    status, out, said = self.run_verb(verb, *arguments)
                    self.assertEqual((status, out), (2, b""))
                    self.assertTrue(said)

    def test_rubbish_for_every_file(self):
        chance = random.Random(5)
        rubbish = [b"", b"\0", b"\n", b"\xff" * 40, bytes(range(256)), "ä{".encode(), b"{" * 5000, b"p { " + b"(" * 5000, b"9" * 5000]
        rubbish += [chance.randbytes(chance.randrange(1, 60)) for _ in range(40)]
        rubbish += [bytes(chance.randrange(6) for _ in range(chance.randrange(1, 60))) for _ in range(60)]
        path = self.folder / "rubbish"
        pool, question, target = "examples/ring.pool", "ring(0x10)", str(self.folder / "a.dot")
        for data in rubbish:
            path.write_bytes(data)
            file = str(path)
            for arguments in (
                ("ask", file, pool, question),
                ("ask", "house", file, question),
                ("ask", "house", file, pool, question, "--json"),
                ("ask", "house", pool, data.decode("latin-1")),
                ("ask", "--part", "house", file, question),
                ("ask", "--walk", file, pool, question),
                ("ask", "--walk", "house", file, question),
                ("check", "house", pool, question, file),
                ("check", "house", pool, question, file, "--part", data.decode("latin-1")),
                ("draw", "house", file, question, "-o", target),
                ("encode", "bench", file, file, question),
                ("decode", "book", file),
                ("decode", "snapshot", file),
                ("decode", "question", "house", file),
                ("decode", "bench", file),
            ):
                with self.subTest(data=data, verb=arguments[:2]):
                    self.assertIn(self.run_verb(*arguments)[0], (0, 1, 2))

    def test_questions_that_look_like_options(self):
        self.assertEqual(self.run_verb("ask", "house", "examples/ring.pool", "-ring(1)")[0], 2)
        self.assertEqual(self.run_verb("ask", "--", "house", "examples/ring.pool", "ring(0x10)")[0], 0)

    def test_two_dashes_are_no_value(self):
        asked = ("house", "examples/ring.pool", "ring(0x10)")
        for verb in (["ask", *asked, "--save=--"], ["check", *asked, "examples/ring.pool", "--part=--"], ["draw", *asked, "-o--"]):
            with self.subTest(verb=verb):
                status, out, said = self.run_verb(*verb)
                self.assertEqual((status, out, said.count("-- is no value of an option")), (2, b"", 1))

    def test_files_that_look_like_options(self):
        """After --, wherever that stands."""
        for name in ("-p", "--part", "--", "-1"):
            (self.folder / name).write_text("10: 10\n")
            os.chdir(self.folder)
            asked = [name, "ring(10)"]
            for arguments in (["--", "house", *asked], ["house", "--", *asked], ["--json", "--", "house", *asked]):
                with self.subTest(arguments=arguments):
                    status, out, said = self.run_verb("ask", *arguments)
                    self.assertEqual((status, b"fits" in out, b"a part" in out, said), (0, True, False, ""))
            os.chdir(ROOT)
