"""How an archive is packed and unpacked: all programs unpack the output of `pack` alike, and everything else is refused."""

import gzip
import io
import pathlib
import subprocess
import tarfile
import tempfile
from unittest import mock

import hypothesis
from hypothesis import strategies

from ggp_tools.competition import packing
from ggp_tools.competition.packing import Spoilt, TooLarge, pack, planned_ids, unpack
from support import InFolder, toml

COMPETITION = toml([("ann", "h:1"), ("bob", "h:2")], [("g", "f")]).encode()
ROW = b"cup-1\tg\t10\t5\tann bob\n"
FIRST = {"cup/competition.toml": COMPETITION, "cup/schedule.tsv": b"id\n" + ROW}
LONG = f"cup/pages/players/player-{'x' * 120}.html"
FILES = {**FIRST, "cup/empty": b"", "cup/block": b"b" * 512, "cup/pages/index.html": b"c" * 5_000, LONG: b"d"}
END = bytes(1_024)


def tar_of(files):
    """Returns the tar file of an archive."""
    found = io.BytesIO()
    pack(found, files.items() if isinstance(files, dict) else files)
    return gzip.decompress(found.getvalue())


def unpacked(tar):
    """Unpacks the archive of a tar file. Returns the files, or the reason why the archive is refused."""
    with tempfile.TemporaryDirectory() as name:
        room = pathlib.Path(name)
        path = room / "a.tar.gz"
        path.write_bytes(gzip.compress(tar, 1))
        try:
            folder = unpack(path, room)
        except Spoilt as why:
            return str(why).replace(f"{name}/", "")
        return {str(file.relative_to(room)): file.read_bytes() for file in folder.rglob("*") if file.is_file()}


def block(name, kind=tarfile.REGTYPE, data=b"", change=None, form=tarfile.USTAR_FORMAT):
    """Returns a header and the bytes after it. `change` edits the header before the checksum is computed."""
    member = tarfile.TarInfo(name)
    member.type, member.size, member.mode = kind, len(data), 0 if kind == tarfile.XHDTYPE else 0o644
    header = bytearray(member.tobuf(form))
    if change:
        change(header)
        header[148:156] = b" " * 8
        header[148:156] = b"%06o\0 " % sum(header)
    return bytes(header) + data + bytes(-len(data) % 512)


def at(place, data):
    """Returns a function that writes these bytes at a position of a header."""

    def change(header):
        header[place : place + len(data)] = data

    return change


def record(key, value):
    """Returns a record of an extended header."""
    rest = f" {key}={value}\n".encode()
    length = next(count for count in range(len(rest), len(rest) + 9) if count == len(rest) + len(str(count)))
    return str(length).encode() + rest


def extended(*records):
    return block("././@PaxHeader", tarfile.XHDTYPE, b"".join(records))


def long_name(name):
    return block("././@LongLink", tarfile.GNUTYPE_LONGNAME, name.encode() + b"\0")


# The bytes of the files of FIRST in a tar file.
HEAD = tar_of(FIRST)[: 2 * 512 + sum(len(data) + -len(data) % 512 for data in FIRST.values())]


class Packing(InFolder):
    def test_what_is_packed_is_unpacked_by_all_programs(self):
        tar = tar_of(FILES)
        self.assertEqual((unpacked(tar), unpacked(tar_of(FIRST))), (FILES, FIRST))
        with mock.patch.object(packing, "AT_ONCE", 512):
            self.assertEqual(unpacked(tar), FILES)
        with tarfile.open(fileobj=io.BytesIO(tar)) as archive:
            self.assertEqual({member.name: archive.extractfile(member).read() for member in archive}, FILES)
        subprocess.run(["tar", "x"], input=tar, cwd=self.folder, check=True)
        self.assertEqual({str(file.relative_to(self.folder)): file.read_bytes() for file in self.folder.rglob("*") if file.is_file()}, FILES)

    @hypothesis.given(strategies.lists(strategies.tuples(strategies.integers(0, len(tar_of(FILES)) - 1), strategies.binary(min_size=1, max_size=12)), min_size=1, max_size=3))
    @hypothesis.settings(max_examples=60, deadline=None)
    def test_what_is_unpacked_is_what_would_be_packed(self, changes):
        tar = bytearray(tar_of(FILES))
        for place, data in changes:
            tar[place : place + len(data)] = data
        found = unpacked(bytes(tar))
        if isinstance(found, dict):
            with tarfile.open(fileobj=io.BytesIO(tar)) as archive:
                names = archive.getnames()
            self.assertEqual((sorted(names), tar_of([(name, found[name]) for name in names]).rstrip(b"\0")), (sorted(found), bytes(tar).rstrip(b"\0")))

    def test_what_programs_unpack_differently_is_refused(self):
        plain = block("cup/a", data=b"a")
        self.assertEqual(unpacked(HEAD + plain + END), {**FIRST, "cup/a": b"a"})
        self.assertEqual(unpacked(HEAD + extended(record("path", LONG)) + block(LONG[:100], data=b"a") + END), {**FIRST, LONG: b"a"})
        for what, data in (
            ("what `tar` writes for a long name", long_name(LONG) + block(LONG[:100])),
            ("a short name in an extended header", extended(record("path", "cup/b")) + block("cup/b")),
            ("two extended headers", extended(record("path", LONG)) + extended(record("path", LONG)) + block("x")),
            ("a name twice in one header", extended(record("path", LONG), record("path", "cup/b")) + block(LONG[:100])),
            ("another short name", extended(record("path", LONG)) + block("cup/b")),
            ("a time", extended(record("path", LONG), record("mtime", "1.5")) + block(LONG[:100])),
            ("another size", extended(record("size", "512")) + plain),
            ("another coding of names", extended(record("hdrcharset", "BINARY")) + plain),
            ("a file with holes", extended(record("GNU.sparse.name", "cup/b")) + plain),
            ("a record without a number", extended(b"path=cup/a\n") + plain),
            ("a header for all files", block("x", tarfile.XGLTYPE, record("path", "cup/b")) + plain),
            ("headers for headers", extended() * 3_000),
            ("a name in two parts", block(f"cup/{'d' * 90}/{'f' * 60}")),
            ("the form of `tar`", block("cup/a", form=tarfile.GNU_FORMAT)),
            ("an old form", block("cup/a", change=at(257, bytes(8)))),
            ("an owner", block("cup/a", change=at(108, b"0000001\0"))),
            ("a size below nothing", block("cup/a", change=at(124, b"\xff" * 12))),
            ("a size that is no number", block("cup/a", change=at(124, b"0000000001x\0"))),
            ("a header that is damaged", plain[:3] + b"x" + plain[4:]),
            ("no letter of ASCII", block("cup/\u00e9")),
            ("something between two files", plain[:-1] + b"x"),
            ("a header that is damaged, and more", plain + b"x" * 512 + plain),
            ("another tar file behind the end", plain + END + plain),
            ("something behind the end", plain + END + b"hidden"),
            ("no end of zeros behind the end", plain + bytes(1 << 20)),
            *((f"the kind {kind}", block("cup/a", kind)) for kind in (tarfile.AREGTYPE, tarfile.DIRTYPE, tarfile.SYMTYPE, tarfile.LNKTYPE, tarfile.CONTTYPE, tarfile.FIFOTYPE)),
        ):
            with self.subTest(what):
                self.assertRegex(unpacked(HEAD + data + END), "^(it can't be unpacked: |its bytes are not those that `publish` would write: the difference is )")

    def test_one_that_is_cut_off_is_refused(self):
        tar = tar_of({**FIRST, "cup/a": b"a" * 700})
        end = len(tar.rstrip(b"\0"))
        for length in (0, 100, 512, 600, 1_100, end, end // 512 * 512 + 512, end // 512 * 512 + 1_024):
            self.assertRegex(unpacked(tar[:length]), "it can't be unpacked: it ends too early|its bytes are not those that `publish` would write: the difference is at its end")
        path = self.folder / "a.tar.gz"
        for data in (b"", b"x", gzip.compress(b"x" * 512), gzip.compress(tar)[:-20]):
            path.write_bytes(data)
            with self.assertRaisesRegex(Spoilt, "it can't be unpacked: "):
                unpack(path, self.folder / "room")

    def test_files_below_one_directory_are_taken(self):
        places = "rules/a.kif", "games/a.kif", "records/a.json", "logs/a.jsonl", "earlier/3.toml", "pages/index.html", "pages/matches/a.html", "pages/games/a.html", "pages/players/a.html"
        found = {**FIRST, **{f"cup/{name}": b"1" for name in places}}
        self.assertEqual(unpacked(tar_of(found)), found)
        wrong = "a/b", "rules", "pages", "earlier", "rules/a/b", "pages/other/a.html", "pages/matches/a/b", "xpages/index.html", "a b", "../a", "rules/..", "./a", "pages//a", "a\n"
        for name in ("cup", "/cup/a", *(f"cup/{name}" for name in wrong), f"cup/records/{'a' * 256}"):
            self.assertEqual(unpacked(tar_of({**FIRST, name: b"1"})), f"{name!r} is not a file of a competition")
        self.assertEqual(unpacked(tar_of({**FIRST, "cap/a": b"1"})), "'cap/a' is not below cup")
        self.assertEqual(unpacked(tar_of([*FIRST.items(), ("cup/a", b""), ("cup/a", b"")])), "it contains cup/a twice, or has a file where a directory of cup/a must be")
        self.assertEqual(unpacked(tar_of({**FIRST, "cup/pages/games": b"1", "cup/pages/games/a": b"1"})), "it contains cup/pages/games/a twice, or has a file where a directory of cup/pages/games/a must be")
        self.assertEqual(unpacked(tar_of({**FIRST, "cup/pages/games/a": b"1", "cup/pages/games": b"1"})), "it contains cup/pages/games twice, or has a file where a directory of cup/pages/games must be")

    def test_the_first_files_say_how_many_there_are(self):
        said = "it does not begin with competition.toml and schedule.tsv"
        for files in ({}, {"cup/competition.toml": b""}, {"cup/schedule.tsv": b"", **FIRST}, {"cup/competition.toml": b"", "cup/a": b"", **FIRST}):
            self.assertIn(said, unpacked(tar_of(files)))

    def test_only_files_that_the_matches_need_are_unpacked(self):
        path, of_match = self.folder / "a.tar.gz", {f"cup/{name}": b"1" for name in ("records/cup-1.json", "accounts/cup-1.txt", "pages/matches/cup-1.html")}
        log = {"cup/logs/cup-1.jsonl": b""}
        with mock.patch.object(packing, "OTHER_FILES", 4):
            self.assertEqual(len(unpacked(tar_of({**FIRST, **of_match, **log, "cup/a": b"", "cup/records/x.json": b""}))), 8)
            with open(path, "wb") as file:
                pack(file, [*FIRST.items(), *((f"cup/logs/{number}.jsonl", b"") for number in range(30))])
            with self.assertRaisesRegex(Spoilt, "it has more than 4 files that belong to no match of its schedule"):
                unpack(path, self.folder)
        self.assertEqual(len([*(self.folder / "cup").rglob("*.*")]), 4)
        for name in (*of_match, *log):
            self.assertEqual(unpacked(tar_of({**FIRST, name: b""})), f"{name} is empty")

    def test_a_schedule_has_a_greatest_number_of_matches(self):
        rows = [b"cup-%d\tg\t10\t5\tann bob\n" % number for number in range(100_001)]
        schedule = self.folder / "schedule.tsv"
        schedule.write_bytes(b"id\n" + b"".join(rows[:-1]))
        self.assertEqual(len(planned_ids(schedule)), 100_001)
        schedule.write_bytes(b"id\n" + b"".join(rows))
        with self.assertRaisesRegex(Spoilt, "^schedule.tsv has more than 100,000 matches$"):
            planned_ids(schedule)

    def test_a_file_has_no_more_bytes_than_are_read_of_it(self):
        for name, most in (("competition.toml", 4 << 20), ("SHA256SUMS", 64 << 20), ("earlier/7.toml", 4 << 20), ("games/a.kif", 64 << 20), ("logs/a.jsonl", 256 << 20), ("records/a.json", 1 << 30)):
            large = block(f"cup/{name}", change=at(124, b"%011o\0" % (most + 1)))
            head = HEAD if name != "competition.toml" else b""
            self.assertEqual(unpacked(head + large + END), f"cup/{name} has more than {most:,} bytes, the limit of such a file in an archive")
        with mock.patch.dict(packing.MOST_OF_FILES, {"logs": 2}):
            self.assertEqual(len(unpacked(tar_of({**FIRST, "cup/logs/a": b"12"}))), 3)
            with self.assertRaisesRegex(TooLarge, "cup/logs/a has more than 2 bytes"):
                tar_of({**FIRST, "cup/logs/a": b"123"})

    def test_the_bytes_of_all_files_are_counted(self):
        files = {**FIRST, "cup/a": b"123", "cup/b": b"45"}
        size = sum(map(len, files.values()))
        tar = tar_of(files)
        with mock.patch.object(packing, "MOST_BYTES", size):
            self.assertEqual((unpacked(tar), tar_of(files)), (files, tar))
        with mock.patch.object(packing, "MOST_BYTES", size - 1):
            self.assertEqual(unpacked(tar), f"with 'cup/b' it has more than {size - 1} bytes, the limit of an archive")
            with self.assertRaisesRegex(TooLarge, f"it has more than {size - 1} bytes, the limit of an archive"):
                tar_of(files)
        self.assertEqual(packing.MOST_BYTES, 8_589_934_592)
        # A file of this size is refused before any byte of it is written.
        large = block("cup/a", change=at(124, b"77777777777\0"))
        self.assertEqual(unpacked(HEAD + large + END), "with 'cup/a' it has more than 8,589,934,592 bytes, the limit of an archive")


