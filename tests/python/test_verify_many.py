"""Many processes give the same results for records as one process. A fake program accepts lines that contain `ok`. It treats lines that
begin with a digit as lines of call logs."""

import contextlib
import io
import itertools
import os
import signal
import subprocess
import sys
import threading
import types
import unittest
from unittest import mock

from ggp_tools.records import verify_many
from ggp_tools.records.verify_many import Fault, arguments, check, check_all, pieces
from support import TOP, InFolder, raised, script, verdict_rows

WRITE_WORDS = 'echo "$@" >> "$(dirname "$0")/words"\n'
CHECK = """exec awk '
/^[0-9]/ { print "{\\"verdict\\":\\"skipped\\"}"; next }
/short/ { print "ggp_manager: want of memory" > "/dev/stderr"; status = 2; exit }
/ok/ { print "{\\"verdict\\":\\"lawful\\"}"; next }
{ print "{\\"verdict\\":\\"not_lawful\\",\\"fault\\":\\"goals\\"}"; status = 1 }
END { exit status }'
"""


def reading(read):
    """Replaces reads of standard input in this module."""
    return mock.patch.object(verify_many, "os", types.SimpleNamespace(**{**vars(os), "read": read}))


class Pieces(unittest.TestCase):
    def pieces(self, size, *parts):
        """Returns the pieces of an input that is read in these parts. If a part is an exception, it is raised."""
        reads = iter(parts)

        def read(stream, most):
            self.assertEqual((stream, most), (0, min(size, verify_many.CHUNK)))
            part = next(reads, b"")
            if isinstance(part, Exception):
                raise part
            return part

        found = []
        with reading(read):
            try:
                for piece in pieces(size):
                    found.append(piece)
            except Fault as fault:
                found.append(fault)
        return found

    def test_the_first_one_is_empty(self):
        self.assertEqual(self.pieces(9), [b""])

    def test_they_are_cut_at_line_ends_once_they_are_large_enough(self):
        self.assertEqual(self.pieces(4, b"a\nb\n", b"c\nd", b"e\nf", b"g"), [b"", b"a\nb\n", b"c\nde\n", b"fg"])
        self.assertEqual(self.pieces(5, b"a\nb\n", b"cd\n", b"e"), [b"", b"a\nb\ncd\n", b"e"])
        self.assertEqual(self.pieces(1, b"a", b"b", b"\n", b"c\n"), [b"", b"ab\n", b"c\n"])

    def test_no_byte_is_lost_however_it_is_read(self):
        text = b"one\ntwo\n\nthree\nfour"
        for cuts in itertools.combinations(range(1, len(text)), 3):
            parts = [text[begin:end] for begin, end in itertools.pairwise((0, *cuts, len(text)))]
            for size in (1, 7, 99):
                found = self.pieces(size, *parts)
                self.assertEqual(b"".join(found), text)
                self.assertTrue(all(piece.endswith(b"\n") for piece in found[1:-1]), (found, size))

    def test_a_line_that_is_too_long_ends_the_last_piece(self):
        with mock.patch.object(verify_many, "LONGEST_LINE", 4):
            self.assertEqual(self.pieces(99, b"a\n", b"bb", b"bb", b"b", b"\nc\n"), [b"", b"a\nbbbbb"])
            self.assertEqual(self.pieces(99, b"a\n", b"bb", b"bb", b"\nc\n"), [b"", b"a\nbbbb\nc\n"])
            self.assertEqual(self.pieces(99, b"aa", b"aa", b"\nc\n"), [b"", b"aaaa\nc\n"])
            self.assertEqual(self.pieces(99, b"aaaaa\nbb", b"bb", b"\n"), [b"", b"aaaaa\nbbbb\n"])
        self.assertEqual(verify_many.LONGEST_LINE, 68_719_476_736)

    def test_where_reading_fails_whole_lines_are_checked_first(self):
        *found, fault = self.pieces(99, b"a\nb", b"c", OSError(5, "bad"))
        self.assertEqual((found, fault.said, fault.status), ([b"", b"a\n"], b"ggp_manager: read fault\n", 2))
        self.assertEqual(self.pieces(2, b"a\nb", OSError(5, "bad"))[:-1], [b"", b"a\n", b""])


class WithProgram(InFolder):
    def setUp(self):
        super().setUp()
        self.program = self.stand_in("program", f"#!/bin/sh\n{WRITE_WORDS}{CHECK}")

    def stand_in(self, name, text):
        return str(script(self.folder / name, text))


class Checks(WithProgram):
    def checked(self, piece, program=None):
        """Returns the verdicts on a piece, the counts, and the error."""
        found = check([program or self.program, "verify"], piece)
        return found.verdicts, found.skipped, found.unlawful, found.fault and (found.fault.said, found.fault.status)

    def test_verdicts_and_counts(self):
        self.assertEqual(self.checked(b"ok\nok\n"), (b"lawful\nlawful\n", 0, 0, None))
        self.assertEqual(self.checked(b"ok\nno\n7\n8\nno\n"), (b"lawful\nnot lawful: goals\nnot lawful: goals\n", 2, 2, None))
        self.assertEqual((self.checked(b"7\n"), self.checked(b"")), ((b"", 1, 0, None), (b"", 0, 0, None)))
        found = check([self.program, "verify", "--json"], b"ok\nno\n7\n")
        self.assertEqual((found.verdicts, found.skipped, found.unlawful), (verdict_rows(None, "goals") + b'{"verdict":"skipped"}\n', 1, 1))
        self.assertEqual(set((self.folder / "words").read_text().splitlines()), {"verify --json"})

    def test_a_fault_of_the_program(self):
        self.assertEqual(self.checked(b"ok\nshort\n"), (b"lawful\n", 0, 0, (b"ggp_manager: want of memory\n", 2)))
        # If there is an unlawful record, the exit status is 1, otherwise 0.
        for name, row, status in (("silent", "", 1), ("wrong", verdict_rows("goals").decode(), 0), ("fault", verdict_rows("goals").decode(), 2)):
            program = self.stand_in(name, f"#!/bin/sh\ncat > /dev/null\necho said >&2\nprintf '%s' '{row}'\nexit {status}\n")
            self.assertEqual(self.checked(b"no\n", program)[1:], (0, 0, (b"said\n", 2)), name)

    def test_what_is_not_a_verdict(self):
        for name, row in (("words", "lawful"), ("number", "7"), ("object", '{"verdict":"taken"}'), ("other", '{"a":1}')):
            program = self.stand_in(name, f"#!/bin/sh\ncat > /dev/null\necho '{row}'\n")
            said = f"ggp-verify-records: {program} did not print verdicts: is it ggp_manager?\n".encode()
            self.assertEqual(self.checked(b"ok\n", program), (b"", 0, 0, (said, 2)), name)

    def test_a_signal(self):
        killed = self.stand_in("killed", "#!/bin/sh\ncat > /dev/null\necho some >&2\nprintf '%s\\n%s' '{\"verdict\":\"lawful\"}' '{\"ver'\nkill -9 $$\n")
        said = f"some\nggp-verify-records: {killed} was killed by signal 9\n".encode()
        self.assertEqual(self.checked(b"ok\nok\n", killed), (b"lawful\n", 0, 0, (said, 137)))

    def test_a_program_that_can_not_be_run(self):
        none = str(self.folder / "none")
        self.assertEqual(self.checked(b"ok\n", none), (b"", 0, 0, (f"ggp-verify-records: cannot run {none}: No such file or directory\n".encode(), 2)))

    def test_one_that_reads_no_further(self):
        deaf = self.stand_in("deaf", "#!/bin/sh\necho 'ggp_manager: bad description' >&2\nexit 2\n")
        self.assertEqual(self.checked(b"x" * (1 << 20), deaf)[3], (b"ggp_manager: bad description\n", 2))


class All(WithProgram):
    def all(self, text, jobs=2, size=8, program=None):
        """Returns the output, the messages and the error for this input."""
        written, said, reads = [], [], iter([text[at : at + 3] for at in range(0, len(text), 3)])
        # A thread of an earlier call may still be reading, and must not take the input of this call.
        before = set(threading.enumerate())
        with contextlib.ExitStack() as stack:
            stack.enter_context(reading(lambda *_: b"" if threading.current_thread() in before else next(reads, b"")))
            stack.enter_context(mock.patch.object(verify_many, "write_whole", lambda stream, some: (written if stream == 1 else said).append(bytes(some))))
            try:
                check_all([program or self.program, "verify", "--lines"], jobs, size)
            except Fault as fault:
                return b"".join(written), b"".join(said), (fault.said, fault.status)
        return b"".join(written), b"".join(said), None

    def test_the_answer_is_that_of_one_process(self):
        text = b"ok\nno\n7\nok\n" * 9 + b"no"
        verdicts = b"lawful\nnot lawful: goals\nlawful\n" * 9 + b"not lawful: goals\n"
        for jobs, size in ((1, 1), (1, 999), (3, 1), (3, 20)):
            self.assertEqual(self.all(text, jobs, size), (verdicts, b"ggp_manager: call log lines skipped: 9\n", (b"ggp_manager: records not lawful 10\n", 1)))
        self.assertEqual(self.all(b"ok\n" * 5), (b"lawful\n" * 5, b"", None))
        self.assertEqual(self.all(b""), (b"", b"", None))
        self.assertEqual(set((self.folder / "words").read_text().splitlines()), {"verify --lines --json"})

    def test_behind_a_fault_nothing_is_written(self):
        text = b"ok\nno\n7\n" * 3 + b"ok\nshort\n" + b"ok\n" * 20
        # When the error occurs, other pieces are still being checked, so the processes of this test write no file.
        program = self.stand_in("silent", f"#!/bin/sh\n{CHECK}")
        for size in (1, 4):
            written, said, fault = self.all(text, 3, size, program)
            self.assertEqual((written, said, fault), (b"lawful\nnot lawful: goals\n" * 3 + b"lawful\n", b"", (b"ggp_manager: want of memory\n", 2)))

    def test_a_thread_that_can_not_be_made_is_want_of_memory(self):
        with mock.patch.object(verify_many.threading.Thread, "start", side_effect=RuntimeError):
            raised(MemoryError, self.all, b"ok\n")

    def test_the_size_is_that_of_pieces(self):
        sizes = []
        with mock.patch.object(verify_many, "pieces", lambda size: sizes.append(size) or iter(())):
            self.all(b"", jobs=3, size=9)
        self.assertEqual(sizes, [9])

    def test_verdicts_that_can_not_be_written(self):
        with reading(lambda *_: b""), mock.patch.object(verify_many, "write_whole", side_effect=OSError(28, "full")):
            why = raised(Fault, check_all, [self.program], 1, 9)
        self.assertEqual((why.said, why.status), (b"ggp_manager: write fault\n", 2))

    def test_no_more_processes_at_a_time_than_were_asked_for(self):
        counting = self.stand_in("counting", '#!/bin/sh\ncd "$(dirname "$0")"\nmkdir run.$$\nls -d run.* | wc -l >> counts\nsleep 0.05\nrmdir run.$$\ncat > /dev/null\n')
        self.all(b"ok\n" * 12, 2, 1, counting)
        counts = list(map(int, (self.folder / "counts").read_text().split()))
        self.assertEqual((len(counts), max(counts) <= 2), (13, True))

    def test_no_more_than_two_pieces_besides_those_of_the_processes_are_in_memory(self):
        jobs, count, changed = 2, 40, threading.Condition()
        read = written = most = 0

        def counted(size):
            nonlocal read, most
            for _ in range(count):
                with changed:
                    read, most = read + 1, max(most, read + 1 - written)
                    changed.notify_all()
                yield b"ok\n"

        def checked(words, piece):
            # Each check waits until the command has read ahead as far as it may.
            with changed:
                changed.wait_for(lambda: read == count or read - written >= jobs + 2)
            return verify_many.Checked(b"lawful\n")

        def write(stream, text):
            nonlocal written
            with changed:
                written += 1
                changed.notify_all()

        with contextlib.ExitStack() as stack:
            for name, other in (("pieces", counted), ("check", checked), ("write_whole", write)):
                stack.enter_context(mock.patch.object(verify_many, name, other))
            check_all(["program"], jobs, 1)
        self.assertEqual((written, most), (count, jobs + 2))


class Commands(WithProgram):
    def run_command(self, *words, text=b""):
        ran = subprocess.run([sys.executable, TOP / "python/ggp-verify-records", *words], input=text, capture_output=True)
        return ran.returncode, ran.stdout, ran.stderr

    def test_words(self):
        given, options = arguments(["--jobs", "3", "--piece", "1", "program", "--", "--countdown", "3", "--"])
        self.assertEqual((given.jobs, given.piece, given.program, options), (3, 1, "program", ["--countdown", "3", "--"]))
        given, options = arguments(["program", "--"])
        self.assertEqual((given.jobs, given.piece, options), (len(os.sched_getaffinity(0)), 4_194_304, []))
        for words in (["--jobs", "1024", "--piece", str(1 << 30)], ["--jobs", "1"]):
            arguments([*words, "program", "--"])
        with mock.patch("os.sched_getaffinity", lambda process: () if process else range(7)):
            self.assertEqual(arguments(["program", "--"])[0].jobs, 7)
        with mock.patch("sys.stdout", io.StringIO()) as out, self.assertRaises(SystemExit), mock.patch.dict(os.environ, {"COLUMNS": "500"}):
            arguments(["--help"])
        lines = out.getvalue().splitlines()
        self.assertEqual(lines[0], "usage: ggp-verify-records [--jobs N] [--piece BYTES] PROGRAM -- OPTIONS < records > verdicts")
        self.assertEqual(lines[2], verify_many.__doc__.splitlines()[0])
        self.assertTrue(" ".join(out.getvalue().split()).endswith("The command needs only Python 3.11 or later."))

    def test_words_that_are_none(self):
        for words in (["program"], ["--"], ["--jobs", "0", "p", "--"], ["--jobs", "1025", "p", "--"], ["--piece", "0", "p", "--"], ["--piece", str((1 << 30) + 1), "p", "--"], ["--jobs", "x", "p", "--"], ["--jobs", "-1", "p", "--"], ["--jobs", "1_0", "p", "--"]):
            with mock.patch("sys.stderr"):
                self.assertEqual(raised(SystemExit, arguments, words).code, 2, words)

    def test_status_and_streams_are_those_of_one_process(self):
        self.assertEqual(self.run_command(self.program, "--", "x", text=b"ok\nno\n7\n"), (
            1, b"lawful\nnot lawful: goals\n", b"ggp_manager: call log lines skipped: 1\nggp_manager: records not lawful 1\n",
        ))
        self.assertEqual((self.folder / "words").read_text().splitlines()[-1], "verify --lines x --json")
        self.assertEqual(self.run_command(self.program, "--", text=b"ok\n"), (0, b"lawful\n", b""))
        self.assertEqual(self.run_command(self.program, "--", text=b"short\n"), (2, b"", b"ggp_manager: want of memory\n"))

    def ended(self, *words, fault=None, handler=None):
        """Returns the exit status of a run whose check raises this error, the arguments, the messages, and the signals that are set."""
        checked, said, signals = mock.Mock(side_effect=fault), [], mock.Mock()
        with contextlib.ExitStack() as stack:
            for name, other in (("check_all", checked), ("say", said.append), ("hold_closed_streams", mock.Mock())):
                stack.enter_context(mock.patch.object(verify_many, name, other))
            for name, other in (("sys.argv", ["x", *words]), ("os._exit", sys.exit), ("signal.signal", signals), ("signal.getsignal", lambda _: handler)):
                stack.enter_context(mock.patch(name, other))
            code = raised(SystemExit, verify_many.main).code
        return code, checked.call_args.args, b"".join(said), [call.args for call in signals.call_args_list]

    def test_how_a_run_ends(self):
        words, more = ("--jobs", "3", "--piece", "9", "p", "--"), (["p", "verify", "--lines"], 3, 9)
        self.assertEqual(self.ended(*words), (0, more, b"", []))
        # Unless the signal is ignored, Ctrl-C ends the command by this signal, as it ends the program.
        self.assertEqual(self.ended(*words, handler=signal.default_int_handler)[3], [(signal.SIGINT, signal.SIG_DFL)])
        for fault, said, status in ((Fault(b"no\n", 1), b"no\n", 1), (Fault(b"bad\n"), b"bad\n", 2), (MemoryError(), b"ggp_manager: want of memory\n", 2)):
            self.assertEqual(self.ended(*words, fault=fault), (status, more, said, []))

    def test_streams_that_are_closed(self):
        words = f"{sys.executable} {TOP}/python/ggp-verify-records {self.program} --"
        for closed, status, said in (("<&-", 2, "ggp_manager: read fault\n"), (">&- < /dev/null", 0, ""), ("2>&- < /dev/null", 0, "")):
            ran = subprocess.run(["sh", "-c", f"{words} {closed}"], capture_output=True, text=True, stdin=subprocess.DEVNULL)
            self.assertEqual((ran.returncode, ran.stderr, ran.stdout), (status, said, ""), closed)
