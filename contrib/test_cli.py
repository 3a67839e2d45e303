#!/usr/bin/env python3
"""Tests of dtmx_pace as it is run from a shell, and of the examples. PACE names another program than the built one."""

import os
import pty
import resource
import select
import shlex
import socket
import subprocess
import sys
import tempfile
import time
import tty
import unittest
from pathlib import Path

TOP = Path(__file__).resolve().parent.parent
BUILT = "crates/dtmx_pace/out/dtmx_pace"
PACE = Path(os.environ.get("PACE") or TOP / BUILT).absolute()
EXAMPLES = TOP / "examples"
USAGE = b"usage: dtmx_pace [--turns=LIST] builtin=OUT ...\n"
LINE_LIMIT = 1_048_576
PIECE = 65_536
SECONDS = 60
AT_ONCE = "--turns=b1000000"


def lines(*rows):
    return b"".join(row.encode() + b"\n" for row in rows)


def nested(depth):
    """So many elements, one in the other."""
    return b"(a\n" * depth + b")a\n" * depth


def row_of_elements(count):
    """A root and elements in it, all of one name: so many elements in all."""
    return b"(a\n" + b"(a\n)a\n" * (count - 1) + b")a\n"


# Its texts are known with its lines 4 and 7.
ITEMS = lines("(list", "(item", "-one", ")item", "(item", "-two", ")item", ")list")

# Words that are no plan.
NO_PLANS = [
    [],
    [""],
    ["--help"],
    ["out"],
    ["builtin"],
    ["builtin="],
    ["=out"],
    ["Builtin=out"],
    ["sheet=out"],
    ["builtin=out", ""],
    ["builtin=out", "more"],
    ["builtin=out", "builtin=out"],
    [f"builtin={at}" for at in range(17)],
    ["--turns=b1"],
    ["--turns", "b1", "builtin=out"],
    ["builtin=out", "--turns=b1"],
    ["--turns=b1", "--turns=b1", "builtin=out"],
    # Words that aren't UTF-8: alone, behind a plan, within a pair, within a list, and a surrogate.
    [b"\xff"],
    ["builtin=out", b"\xff"],
    ["builtin=out", b"builtin=out\xc3"],
    [b"--turns=b1\xff", "builtin=out"],
    [b"builtin=\xed\xa0\x80"],
]

# Lists of turns that are none for one pair.
NO_LISTS = [
    "", ",", "b", "r", "x1", "B1", "b0", "b0000000", "b1000001", "b9999999", "b00000001", "b-1", "b+1", "b1.0", "b1 ",
    "r1", "r99", "r000", "r-1", "b1,", ",b1", "b1,,r0", "b1, r0", "b1;r0", ",".join(["b1"] * 1001),
]

# Lists of turns, the number of pairs, and what is told of the items: each reader with its number of texts.
LISTS = [
    ("b1000000", 1, ["r0 2"]),
    ("b8", 1, ["r0 2"]),
    ("b9,r0", 1, ["r0 2"]),
    ("b8,r0", 1, ["r0 2", "r0 2"]),
    ("r0", 1, ["r0 0", "r0 2"]),
    ("r0,r0,b4", 1, ["r0 0", "r0 0", "r0 1", "r0 1", "r0 2", "r0 2", "r0 2"]),
    ("b3,r0,b1,r0", 1, ["r0 0", "r0 1", "r0 2", "r0 2", "r0 2"]),
    ("b0000004,r00", 1, ["r0 1", "r0 2", "r0 2"]),
    (",".join(["b1", "r0"] * 500), 1, ["r0 0", "r0 0", "r0 0", "r0 1", "r0 1", "r0 1", "r0 2", "r0 2", "r0 2"]),
    ("r1,r0", 2, ["r1 0", "r0 0", "r0 2", "r1 2"]),
    ("b4,r1", 2, ["r1 1", "r1 2", "r0 2", "r1 2"]),
    ("b5,r15", 16, ["r15 1"] + [f"r{reader} 2" for reader in range(16)]),
    ("b1000000", 16, [f"r{reader} 2" for reader in range(16)]),
]

# Sources, their text, and the number of its pieces.
SOURCES = [
    (b"(a\n)a\n", "", 0),
    (b"(a\n-x\n)a", "x", 1),
    (b"(a\r\n-x\r\r\n\r\n)a\r\n", "x\r", 1),
    (lines("(a", r"-\n\t\\n\x" + "\\", ")a"), "\n\t\\n\\x\\", 1),
    (lines("(a", "-", ")a"), "", 0),
    (lines("(a", "- ", "(b", r"-\n", ")b", ")a"), " \n", 2),
    (lines("(a", "-a", "Bz", "", "Zz", "-b", ")a"), "ab", 1),
    (lines("(a", "-a", "?t d", "-b", ")a"), "ab", 2),
    (lines("(a", "-a", "Cc", "-b", ")a"), "ab", 2),
    (
        lines("- ", "Cc", "?t", "(a", "Ak v", "Axmlns:p u", "(p:b", "Ap:k v", "-é𝒳", ")p:b", ")a", r"-\n\t", "C"),
        "é𝒳", 1,
    ),
]

# Sources with a flaw, and where it is told.
FLAWED = [
    (b"", "line 1: NoRoot"),
    (lines("", "Cc", "- "), "line 4: NoRoot"),
    (lines("(a", "(b", ")b"), "line 4: Unclosed"),
    (b"(a\n(b\n-cut", "line 4: Unclosed"),
    (lines("(a", ")b", ")a"), "line 2: WrongEnd"),
    (lines("(a", ")a", ")a"), "line 3: WrongEnd"),
    (lines("(a", ")a", "(a", ")a"), "line 3: SecondRoot"),
    (lines("(a", ")a", "-x"), "line 3: TextOutside"),
    (lines("(a", "!line 7: mismatched tag"), "line 2: UnknownLine"),
    (b"(a\n-\xff\n)a\n", "line 2: NotUtf8"),
    (lines("(a", "Ak", ")a"), "line 2: NoSpace"),
    (lines("(a:b:c", ")a:b:c"), "line 1: BadName"),
    (lines("(a", "-x", "Ak v", ")a"), "line 3: AttrPlace"),
    (lines("(a", "(p:b", "Ak v", ")p:b", ")a"), "line 2: UnboundPrefix"),
    (lines("(a", "Axmlns:p u", "Axmlns:q u", "Ap:k 1", "Aq:k 2", ")a"), "line 1: DuplicateAttr"),
    (b"(a\n" + b"".join(b"Ak%d v\n" % at for at in range(257)) + b")a\n", "line 258: TooManyAttrs"),
    (nested(1001), "line 1001: TooDeep"),
    (b"(a\n-" + b"x" * LINE_LIMIT + b"\n)a\n", "line 2: LongLine"),
    (b"(a\n-" + b"x" * (LINE_LIMIT - 1) + b"\r\n)a\n", "line 2: LongLine"),
    (row_of_elements(1_000_000), "line 1999998: TooManyNodes"),
    # Behind a name of one byte and 33,554,400 bytes of text, 31 bytes fit and one more doesn't.
    (
        b"(a\n" + (b"-" + b"x" * (LINE_LIMIT - 1) + b"\n") * 32 + lines("-" + "x" * 31, "-x", ")a"),
        "line 35: TooMuchText",
    ),
    (
        b"(n\n" + b"".join(b"(n%d\n)n%d\n" % (at, at) for at in range(65_536)) + b")n\n",
        "line 131072: TooManyNames",
    ),
]


class InFolder(unittest.TestCase):
    """Runs the program in a folder of its own."""

    def setUp(self):
        folder = tempfile.TemporaryDirectory()
        self.addCleanup(folder.cleanup)
        self.folder = Path(folder.name)

    def pace(self, *words, stdout=subprocess.PIPE, **options):
        """The status, console and message of the program; its source is the option `input` or `stdin`."""
        done = subprocess.run(
            [PACE, *words], cwd=self.folder, stdout=stdout, stderr=subprocess.PIPE, timeout=SECONDS, **options
        )
        return done.returncode, done.stdout, done.stderr

    def shell(self, redirections, *words, source=b""):
        """The same with redirections of the shell."""
        done = subprocess.run(
            ["sh", "-c", f'exec "$0" "$@" {redirections}', PACE, *words],
            input=source, cwd=self.folder, capture_output=True, timeout=SECONDS,
        )
        return done.returncode, done.stdout, done.stderr

    def files(self):
        """What lies in the folder, which is empty then."""
        found = {}
        for path in self.folder.iterdir():
            found[path.name] = path.read_bytes()
            path.unlink()
        return found


class Delivered(InFolder):
    """Status 0."""

    def test_texts_and_their_pieces(self):
        for source, text, pieces in SOURCES:
            with self.subTest(source):
                self.assertEqual(self.pace(AT_ONCE, "builtin=out", input=source), (0, b"r0 %d\n" % pieces, b""))
                self.assertEqual(self.files(), {"out": text.encode()})

    def test_without_a_list_each_reader_has_a_turn_after_each_line(self):
        console = lines("r0 0", "r0 0", "r0 0", "r0 1", "r0 1", "r0 1", "r0 2", "r0 2", "r0 2")
        self.assertEqual(self.pace("builtin=out", input=ITEMS), (0, console, b""))
        self.assertEqual(self.files(), {"out": b"onetwo"})
        console = lines("r0 0", "r1 0", "r0 0", "r1 0", "r0 1", "r1 1", "r0 1", "r1 1")
        self.assertEqual(self.pace("builtin=a", "builtin=b", input=b"(a\n-x\n)a\n"), (0, console, b""))
        self.assertEqual(self.files(), {"a": b"x", "b": b"x"})

    def test_turns_are_told_in_their_order(self):
        for turns, pairs, told in LISTS:
            with self.subTest(turns, pairs=pairs):
                words = [f"builtin=out{pair}" for pair in range(pairs)]
                self.assertEqual(self.pace(f"--turns={turns}", *words, input=ITEMS), (0, lines(*told), b""))
                self.assertEqual(self.files(), {f"out{pair}": b"onetwo" for pair in range(pairs)})

    def test_an_output_may_have_any_name(self):
        for name in "a=b", "=", "é𝒳", " ", "two\nlines", "--turns=b1":
            with self.subTest(name):
                self.assertEqual(self.pace(AT_ONCE, f"builtin={name}", input=ITEMS), (0, b"r0 2\n", b""))
                self.assertEqual(self.files(), {name: b"onetwo"})

    def test_a_file_gets_the_text_and_nothing_else(self):
        (self.folder / "out").write_bytes(b"longer than the text that comes")
        self.assertEqual(self.pace(AT_ONCE, "builtin=out", input=ITEMS), (0, b"r0 2\n", b""))
        self.assertEqual(self.files(), {"out": b"onetwo"})

    def test_the_texts_come_before_the_console(self):
        words = AT_ONCE, "builtin=/dev/stdout", "builtin=/dev/fd/1"
        self.assertEqual(self.pace(*words, input=ITEMS), (0, b"onetwoonetwor0 2\nr1 2\n", b""))
        self.assertEqual(self.files(), {})

    def test_the_console_is_written_at_once(self):
        # Such a socket keeps what one write gave apart from the next.
        near, far = socket.socketpair(socket.AF_UNIX, socket.SOCK_SEQPACKET)
        with near:
            with far:
                self.assertEqual(self.pace("--turns=b4,r0", "builtin=out", input=ITEMS, stdout=far), (0, None, b""))
            near.settimeout(SECONDS)
            self.assertEqual([near.recv(PIECE), near.recv(PIECE)], [b"r0 1\nr0 2\nr0 2\n", b""])

    def test_long_lines_and_long_texts(self):
        part = b"x" * (LINE_LIMIT - 1)
        source = b"(a\n" + (b"-" + part + b"\n") * 3 + b")a\n"
        self.assertEqual(self.pace(AT_ONCE, "builtin=out", input=source), (0, b"r0 1\n", b""))
        # Not by assertEqual, which would show three megabytes.
        self.assertTrue(self.files() == {"out": part * 3}, "another text came")
        source = b"(list\n" + b"".join(b"(item\n-item %d\\n\n)item\n" % at for at in range(30_000)) + b")list\n"
        self.assertEqual(self.pace(AT_ONCE, "builtin=out", input=source), (0, b"r0 30000\n", b""))
        text = b"".join(b"item %d\n" % at for at in range(30_000))
        self.assertTrue(self.files() == {"out": text}, "another text came")


class Faults(InFolder):
    """Status 1."""

    def test_499_nested_elements_pass(self):
        self.assertEqual(self.pace(AT_ONCE, "builtin=out", input=nested(499)), (0, b"r0 0\n", b""))
        self.assertEqual(self.files(), {"out": b""})

    def test_500_nested_elements_are_a_fault(self):
        (self.folder / "out").write_bytes(b"before")
        words = AT_ONCE, "builtin=out", "builtin=none/out", "builtin=two\nlines", "builtin=/dev/full"
        console = lines(
            "r0 1", "r1 1", "r2 1", "r3 1", "out: fault TooDeep", "none/out: fault TooDeep",
            "two\nlines: fault TooDeep", "/dev/full: fault TooDeep",
        )
        self.assertEqual(self.pace(*words, input=b"(a\n-x\n" + nested(499) + b"-y\n)a\n"), (1, console, b""))
        self.assertEqual(self.files(), {"out": b"before"})

    def test_a_flaw_comes_before_a_fault(self):
        console = b"source: line 1002: WrongEnd\n"
        self.assertEqual(self.pace(AT_ONCE, "builtin=out", input=b"(a\n" + nested(500) + b")b\n"), (4, console, b""))
        self.assertEqual(self.files(), {})


class NoPlans(InFolder):
    """Status 2."""

    def test_words_that_are_no_plan(self):
        for words in NO_PLANS + [[f"--turns={turns}", "builtin=out"] for turns in NO_LISTS]:
            with self.subTest(words), tempfile.TemporaryFile() as source:
                source.write(ITEMS)
                source.seek(0)
                self.assertEqual(self.pace(*words, stdin=source), (2, USAGE, b""))
                self.assertEqual(self.files(), {})
                self.assertEqual(os.lseek(source.fileno(), 0, os.SEEK_CUR), 0, "the source was read")

    def test_the_source_may_be_closed_or_a_folder(self):
        for words in ["builtin"], [b"builtin=\xff"]:
            with self.subTest(words):
                self.assertEqual(self.shell("<&-", *words), (2, USAGE, b""))
                self.assertEqual(self.shell("< /", *words), (2, USAGE, b""))


class Flaws(InFolder):
    """Status 4."""

    def test_a_flaw_is_told_with_its_line(self):
        for source, flaw in FLAWED:
            with self.subTest(source[:40], flaw=flaw):
                (self.folder / "before").write_bytes(b"before")
                words = AT_ONCE, "builtin=out", "builtin=before", "builtin=none/out", "builtin=/dev/stdout"
                self.assertEqual(self.pace(*words, input=source), (4, f"source: {flaw}\n".encode(), b""))
                self.assertEqual(self.files(), {"before": b"before"})

    def test_progress_comes_up_to_the_flaw(self):
        source = lines("(a", "-x", "(b", ")a")
        for words, told in (
            (["builtin=out"], ["r0 0", "r0 0", "r0 1"]),
            (["--turns=b1,r1", "builtin=out", "builtin=more"], ["r1 0", "r1 0", "r1 1"]),
            (["--turns=b3,r0", "builtin=out"], ["r0 1"]),
            (["--turns=r0", "builtin=out"], ["r0 0"]),
            (["--turns=b4,r0", "builtin=out"], []),
        ):
            with self.subTest(words):
                console = lines(*told, "source: line 4: WrongEnd")
                self.assertEqual(self.pace(*words, input=source), (4, console, b""))
                self.assertEqual(self.files(), {})

    def test_little_is_read_after_a_flaw(self):
        with tempfile.TemporaryFile() as source:
            source.write(b"(a\n)b\n" + b"Z\n" * 500_000)
            source.seek(0)
            console = lines("r0 0", "source: line 2: WrongEnd")
            self.assertEqual(self.pace("builtin=out", stdin=source), (4, console, b""))
            self.assertEqual(self.files(), {})
            self.assertLessEqual(os.lseek(source.fileno(), 0, os.SEEK_CUR), PIECE)


class Reads(InFolder):
    """Status 5."""

    def test_a_source_that_is_closed_a_folder_or_written_only(self):
        (self.folder / "out").write_bytes(b"before")
        for redirection in "<&-", "< /", "0> /dev/null":
            for words in ["builtin=out"], ["--turns=r0", "builtin=out", "builtin=more"], ["builtin=/dev/full"]:
                with self.subTest(redirection, words=words):
                    self.assertEqual(self.shell(redirection, *words), (5, b"read failed\n", b""))
        self.assertEqual(self.files(), {"out": b"before"})

    def test_a_read_that_fails_behind_lines(self):
        # The one side of a terminal whose other side is closed gives what was written there, and then fails.
        for source, status, console in (
            (b"", 5, b"read failed\n"),
            (ITEMS, 5, b"read failed\n"),
            (b"(a\n-x\n!not ended", 5, b"read failed\n"),
            (b"(a\n)b\n", 4, b"r0 0\nsource: line 2: WrongEnd\n"),
        ):
            with self.subTest(source):
                near, far = pty.openpty()
                with open(near, "rb", buffering=0) as stdin:
                    with open(far, "wb", buffering=0) as terminal:
                        tty.setraw(terminal)
                        terminal.write(source)
                    self.assertEqual(self.pace("builtin=out", stdin=stdin), (status, console, b""))
                self.assertEqual(self.files(), {})


class Writes(InFolder):
    """Status 6."""

    # Words, sources, and what lies in the folder where the console takes nothing.
    UNTOLD = [
        (["builtin=out", "builtin=more"], ITEMS, {"out": b"onetwo", "more": b"onetwo"}),
        (["builtin=out", "builtin=none/out", "builtin=more"], ITEMS, {"out": b"onetwo"}),
        (["builtin=out"], nested(500), {}),
        (["builtin=out"], lines("(a", ")b"), {}),
        (["builtin"], ITEMS, {}),
        ([b"builtin=\xff"], ITEMS, {}),
    ]

    def test_a_put_that_fails(self):
        for name in "/dev/full", "none/out", ".", "/", "x" * 300:
            with self.subTest(name):
                words = "builtin=before", f"builtin={name}", "builtin=behind"
                self.assertEqual(self.pace(*words, input=ITEMS), (6, b"write failed\n", b""))
                self.assertEqual(self.files(), {"before": b"onetwo"})
                self.assertEqual(self.pace(f"builtin={name}", input=ITEMS), (6, b"write failed\n", b""))
                self.assertEqual(self.files(), {})

    def put_within(self, size, name):
        """A put of 3,000 bytes under this name where no file may grow beyond so many bytes."""
        # Python ignores the signal of this limit, and so does what it starts unless signals are restored: the write
        # fails instead.
        return self.pace(
            f"builtin={name}", "builtin=behind", input=b"(a\n-" + b"x" * 3000 + b"\n)a\n",
            preexec_fn=lambda: resource.setrlimit(resource.RLIMIT_FSIZE, (size, size)), restore_signals=False,
        )

    def test_a_put_that_fails_within_its_text_leaves_what_was_there(self):
        self.assertEqual(self.put_within(1000, "out"), (6, b"write failed\n", b""))
        self.assertEqual(self.files(), {})
        (self.folder / "out").write_bytes(b"before")
        self.assertEqual(self.put_within(1000, "out"), (6, b"write failed\n", b""))
        self.assertEqual(self.files(), {"out": b"before"})

    def test_what_is_no_ordinary_file_is_written_straight(self):
        (self.folder / "linked").write_bytes(b"before")
        (self.folder / "out").symlink_to("linked")
        self.assertEqual(self.put_within(1000, "out"), (6, b"write failed\n", b""))
        self.assertEqual((self.folder / "linked").read_bytes(), b"x" * 1000)
        self.assertEqual(self.pace(AT_ONCE, "builtin=out", input=ITEMS), (0, b"r0 2\n", b""))
        self.assertTrue((self.folder / "out").is_symlink())
        self.assertEqual((self.folder / "linked").read_bytes(), b"onetwo")

    def test_a_put_keeps_permissions_and_the_files_beside(self):
        (self.folder / "out").write_bytes(b"before")
        (self.folder / "out").chmod(0o640)
        self.assertEqual(self.pace(AT_ONCE, "builtin=out", input=ITEMS), (0, b"r0 2\n", b""))
        self.assertEqual((self.folder / "out").stat().st_mode & 0o777, 0o640)
        (self.folder / "out.part").write_bytes(b"somebody's")
        self.assertEqual(self.pace(AT_ONCE, "builtin=out", input=ITEMS), (0, b"r0 2\n", b""))
        self.assertEqual(self.files(), {"out": b"onetwo", "out.part": b"somebody's"})

    def test_a_full_console(self):
        for words, source, files in self.UNTOLD:
            with self.subTest(words, source=source[:40]):
                self.assertEqual(self.shell("> /dev/full", *words, source=source), (6, b"", b""))
                self.assertEqual(self.files(), files)
        self.assertEqual(self.shell("<&- > /dev/full", "builtin=out"), (6, b"", b""))
        self.assertEqual(self.shell("<&- > /dev/full", "builtin"), (6, b"", b""))
        self.assertEqual(self.files(), {})

    def test_a_closed_console(self):
        for words, source, files in self.UNTOLD:
            with self.subTest(words, source=source[:40]):
                self.assertEqual(self.shell(">&-", *words, source=source), (6, b"", b""))
                self.assertEqual(self.files(), files)

    def test_a_console_that_nobody_reads(self):
        for words, source, files in self.UNTOLD:
            with self.subTest(words, source=source[:40]):
                near, far = os.pipe()
                os.close(near)
                with open(far, "wb") as console:
                    self.assertEqual(self.pace(*words, input=source, stdout=console), (6, None, b""))
                self.assertEqual(self.files(), files)


class Streaming(InFolder):
    """Sources that come through a pipe while the program runs."""

    def start(self, *words):
        done = subprocess.Popen(
            [PACE, *words], cwd=self.folder,
            stdin=subprocess.PIPE, stdout=subprocess.PIPE, stderr=subprocess.PIPE,
        )
        self.addCleanup(done.__exit__, None, None, None)
        self.addCleanup(done.kill)
        return done

    def give(self, done, source):
        done.stdin.write(source)
        done.stdin.flush()

    def answer(self, done):
        """The status, console and message, without closing the source."""
        told = b""
        end = time.monotonic() + SECONDS
        while select.select([done.stdout], [], [], max(0, end - time.monotonic()))[0]:
            piece = os.read(done.stdout.fileno(), PIECE)
            if not piece:
                return done.wait(SECONDS), told, done.stderr.read()
            told += piece
        self.fail(f"no end of the console in {SECONDS} seconds, but {told}")

    def test_a_flaw_is_answered_while_the_source_stays_open(self):
        for words, pieces, console in (
            (["builtin=out"], [b"(a\n", b")b\n"], ["r0 0", "source: line 2: WrongEnd"]),
            (["builtin=out"], [b"(a\n)b\n"], ["r0 0", "source: line 2: WrongEnd"]),
            ([AT_ONCE, "builtin=out"], [b"(a\n-x\n", b"-", b"y\n)b\n-more"], ["source: line 4: WrongEnd"]),
            (["--turns=r0", "builtin=out"], [b"(a\n-x\n)", b"b\n"], ["r0 0", "source: line 3: WrongEnd"]),
            ([AT_ONCE, "builtin=out"], [b"(p:a\n", b"Ak v\n", b"Bz\n", b"-x\n"], ["source: line 1: UnboundPrefix"]),
            ([AT_ONCE, "builtin=out"], [b"(a\n)a\n", b"(b\n"], ["source: line 3: SecondRoot"]),
            ([AT_ONCE, "builtin=out"], [b"!line 1: no element found\n"], ["source: line 1: UnknownLine"]),
            # One byte too many, and no line feed.
            ([AT_ONCE, "builtin=out"], [b"(a\n-", b"x" * LINE_LIMIT], ["source: line 2: LongLine"]),
        ):
            with self.subTest(words, first=pieces[0][:40]):
                done = self.start(*words)
                for piece in pieces:
                    self.give(done, piece)
                    time.sleep(0.02)
                self.assertEqual(self.answer(done), (4, lines(*console), b""))
                self.assertEqual(self.files(), {})

    def test_words_are_judged_while_the_source_stays_open(self):
        for words in ["builtin"], [b"builtin=\xff"]:
            with self.subTest(words):
                self.assertEqual(self.answer(self.start(*words)), (2, USAGE, b""))

    def test_a_source_that_ends_early(self):
        for source, flaw in (
            (b"", "line 1: NoRoot"), (b"(a\n-x\n(b\n-y", "line 5: Unclosed"), (b"(a\n)", "line 2: BadName")
        ):
            with self.subTest(source):
                done = self.start(AT_ONCE, "builtin=out")
                self.give(done, source)
                time.sleep(0.02)
                done.stdin.close()
                self.assertEqual(self.answer(done), (4, f"source: {flaw}\n".encode(), b""))
                self.assertEqual(self.files(), {})

    def test_nothing_is_put_or_told_before_the_source_ends(self):
        done = self.start("builtin=out", "builtin=/dev/stdout")
        self.give(done, b"(a\n-x\n)a\n")
        self.assertEqual(select.select([done.stdout], [], [], 0.2)[0], [])
        self.assertIsNone(done.poll())
        self.assertEqual(self.files(), {})
        done.stdin.close()
        console = b"x" + lines("r0 0", "r1 0", "r0 0", "r1 0", "r0 1", "r1 1", "r0 1", "r1 1")
        self.assertEqual(self.answer(done), (0, console, b""))
        self.assertEqual(self.files(), {"out": b"x"})

    def test_single_bytes_make_the_same_answer(self):
        source = lines("(a", "Ak é", "-é𝒳\\n", "Cc", ")a")
        for end, status in (b"", 0), (b"-\xff", 4):
            self.assertEqual(self.pace("builtin=out", input=source + end)[0], status)
            whole = self.pace("builtin=out", input=source + end), self.files()
            done = self.start("builtin=out")
            for at in range(len(source + end)):
                self.give(done, (source + end)[at:at + 1])
            done.stdin.close()
            self.assertEqual((self.answer(done), self.files()), whole)


class Examples(unittest.TestCase):
    """What lies under examples/."""

    def test_commands_print_what_is_expected(self):
        names = sorted(path.stem for path in EXAMPLES.glob("*.command"))
        self.assertEqual(names, sorted(path.stem for path in EXAMPLES.glob("*.expected")))
        self.assertGreater(len(names), 0)
        for name in names:
            with self.subTest(name):
                command = (EXAMPLES / f"{name}.command").read_text()
                self.assertIn(BUILT, command)
                command = command.replace(BUILT, shlex.quote(str(PACE)))
                done = subprocess.run(["sh", "-c", command], cwd=TOP, capture_output=True, timeout=SECONDS)
                printed = done.stdout + b"status %d\n" % done.returncode
                self.assertEqual(printed, (EXAMPLES / f"{name}.expected").read_bytes())

    def test_a_document_its_lines_and_its_text(self):
        texts = sorted(EXAMPLES.glob("*.txt"))
        self.assertGreater(len(texts), 0)
        for text in texts:
            with self.subTest(text.stem), tempfile.TemporaryDirectory() as folder:
                source = text.with_suffix(".pyx").read_bytes()
                done = subprocess.run(
                    [TOP / "contrib/xml2pyx", text.with_suffix(".xml")], capture_output=True, timeout=SECONDS
                )
                self.assertEqual((done.returncode, done.stdout), (0, source))
                done = subprocess.run(
                    [PACE, AT_ONCE, "builtin=out"], input=source, cwd=folder, capture_output=True, timeout=SECONDS
                )
                self.assertEqual(done.returncode, 0)
                self.assertEqual((Path(folder) / "out").read_bytes(), text.read_bytes())


class WithoutAProgram(unittest.TestCase):
    def test_a_missing_program_is_told_in_a_line(self):
        for pace in "/none/dtmx_pace", __file__ + "/dtmx_pace", str(TOP):
            with self.subTest(pace):
                done = subprocess.run(
                    [sys.executable, __file__], env=dict(os.environ, PACE=pace), capture_output=True, text=True
                )
                self.assertEqual((done.returncode, done.stdout), (1, ""))
                self.assertEqual(done.stderr, f"no program {pace}: run 'make build'\n")


if __name__ == "__main__":
    if not (PACE.is_file() and os.access(PACE, os.X_OK)):
        sys.exit(f"no program {PACE}: run 'make build'")
    unittest.main()
