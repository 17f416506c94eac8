"""The proved parts as a library: its declarations, and C, Rust and Python that call it, against the programs. Not run where the kit, a
compiler or an x86-64 processor is missing."""
import ctypes
import importlib.util
import pathlib
import platform
import random
import re
import shutil
import subprocess
import tempfile
import unittest
import zlib

from trying import BLOCK, ROOT, SAMPLES, Trial, program

MADE = 10000
ARCHIVE = ROOT / "target" / "staticlib" / "liblab.a"
LIBRARY = ROOT / "library"
WORDS = ("", "PASS", "FAIL", "INCONCLUSIVE", "UNREADABLE")
START, COMMAND, ANSWER, SILENCE, HOST, DECISION, RESULTS = range(1, 8)
UNREADABLE, TOO_SHORT = 254, 255


def sealed(block):
    """A block with its check made good."""
    return block[:508] + zlib.crc32(block[:508]).to_bytes(4, "big")


class Made(Trial):
    """The archive, built once, and what is made from it."""
    folder_of_all = why = lab = None

    @classmethod
    def setUpClass(cls):
        if Made.folder_of_all is None:
            Made.folder_of_all = pathlib.Path(tempfile.mkdtemp(prefix="lab library "))
            unittest.addModuleCleanup(shutil.rmtree, Made.folder_of_all, ignore_errors=True)
            Made.why = cls.build()

    @staticmethod
    def build():
        if platform.machine() != "x86_64":
            return f"the library is for x86-64, this is {platform.machine()}"
        for name in ("rt", "gcc", "rustc"):
            if shutil.which(name) is None:
                return f"{name} is not here"
        subprocess.run([ROOT / "tools" / "static-library"], check=True, capture_output=True, timeout=3000)
        made = Made.folder_of_all
        subprocess.run(["gcc", "-std=c11", "-O2", "-Wall", "-Wextra", "-Werror", "-I", LIBRARY, LIBRARY / "example.c", ARCHIVE,
                        "-o", made / "c"], check=True)
        subprocess.run(["rustc", "-O", "--edition", "2021", "-D", "warnings", "-L", f"native={ARCHIVE.parent}", "-l", "static=lab",
                        LIBRARY / "example.rs", "-o", made / "rust"], check=True)
        subprocess.run(["gcc", "-shared", "-Wl,--whole-archive", ARCHIVE, "-Wl,--no-whole-archive", "-o", made / "liblab.so"], check=True)
        found = importlib.util.spec_from_file_location("lab_declared", LIBRARY / "lab.py")
        module = importlib.util.module_from_spec(found)
        found.loader.exec_module(module)
        Made.lab = module.Lab(str(made / "liblab.so"))
        return None

    def setUp(self):
        super().setUp()
        if self.why:
            self.skipTest(self.why)

    def judged(self, tape):
        finding = (ctypes.c_uint64 * 4)()
        self.lab.lab_judge(tape, finding)
        plain = tuple(finding)
        self.lab.lab_judge_quick(tape, finding)
        self.assertEqual(tuple(finding), plain, "the quick judge finds otherwise")
        return f"{WORDS[finding[0]]} {finding[1]} {finding[2]} {finding[3]}"

    def due(self, tape, room=600):
        following, out = (ctypes.c_uint64 * 2)(), bytearray(b"\xa5" * room)
        self.lab.lab_due(tape, following, out)
        return following[0], following[1], out


class Declarations(Trial):
    def headers(self, *words):
        return subprocess.run([ROOT / "tools" / "lab-headers", *words], capture_output=True, text=True)

    def test_they_are_as_the_sources_are(self):
        done = self.headers("--check")
        self.assertEqual((done.returncode, done.stdout), (0, "8 functions; the files are as the sources are\n"), done)
        for name in ("lab.h", "lab.rs", "lab.py"):
            self.assertIn("x86-64 Linux alone", (LIBRARY / name).read_text()[:60])

    def test_a_type_that_is_not_known_stops_it(self):
        form = '#[unsafe(no_mangle)]\npub extern "C" fn lab_x({}){}\n    ensures {{ }}\n{{\n}}\n'
        for parameters, result in (("a: &[u32]", ""), ("a: &mut u32", ""), ("a: Entry", ""), ("a: &mut [u8; 4]", ""), ("a", ""),
                                   ("a: u8", " -> Found"), ("a: &[u8]", " -> &[u8]"), ("a: i32", "")):
            (self.folder / "lib.rt").write_text(form.format(parameters, result))
            done = self.headers("--check", "--source", str(self.folder))
            self.assertEqual((done.returncode, done.stdout), (2, ""), (parameters, result))
            self.assertIn("known", done.stderr)
        (self.folder / "lib.rt").write_text("#[unsafe(no_mangle)]\npub extern fn lab_x()\n{\n}\n")
        self.assertEqual(self.headers("--check", "--source", str(self.folder)).returncode, 2)
        (self.folder / "lib.rt").write_text("")
        self.assertEqual(self.headers("--check", "--source", str(self.folder)).returncode, 2)


class Judging(Made):
    def odd(self, chance, tapes):
        """A tape made from samples: cut, with blocks changed, doubled, exchanged or spoilt, most of them with their check made good."""
        tape = bytearray(chance.choice(tapes))
        for _ in range(chance.randrange(4)):
            what, at = chance.randrange(7), BLOCK * chance.randrange(max(1, len(tape) // BLOCK))
            if what == 0:
                tape = tape[:at]
            elif what == 1:
                tape = tape[:chance.randrange(len(tape) + 1)]
            elif what == 2 and tape:
                tape[chance.randrange(len(tape))] ^= 1 << chance.randrange(8)
            elif what == 3:
                tape += tape[at:at + BLOCK]
            elif len(tape) >= at + BLOCK:
                block = bytearray(tape[at:at + BLOCK])
                place = chance.choice((3, 7, 8, 9, 11, 12, 13, 14, 15, 20, 30)) if what < 6 else chance.randrange(508)
                block[place] ^= 1 << chance.randrange(8)
                tape[at:at + BLOCK] = sealed(bytes(block))
        return bytes(tape)

    def test_all_languages_and_the_judge_say_the_same(self):
        chance, tapes = random.Random(41), [path.read_bytes() for path in sorted(SAMPLES.glob("*.tape")) if path.stem != "transit"]
        names = [str(path) for path in sorted(SAMPLES.glob("*.tape"))]
        (self.folder / "made").mkdir()
        for number in range(MADE):
            name = self.folder / "made" / f"t-{number:05}.tape"
            name.write_bytes(self.odd(chance, tapes))
            names.append(str(name))
        asked = "".join(f"{name}\n" for name in names).encode()
        done = self.bin("judge", "-", given=asked, seconds=600)
        self.assertIn(done.status, (0, 1), done.err)
        expected = done.out.decode().splitlines()
        self.assertEqual(len(expected), len(names))
        for program in ("c", "rust"):
            said = subprocess.run([self.folder_of_all / program], input=asked, capture_output=True, check=True, timeout=600)
            self.assertEqual(said.stdout.decode().splitlines(), expected)
        self.assertEqual([f"{name} {self.judged(pathlib.Path(name).read_bytes())}" for name in names], expected)
        verdicts = [line.split()[-4] for line in expected]
        for word in WORDS[1:]:
            self.assertGreater(verdicts.count(word), 100, word)

    def test_empty_bytes(self):
        self.assertEqual(self.judged(b""), "INCONCLUSIVE 0 0 0")
        self.assertEqual(self.due(b"")[:2], (START, 0))


class Playing(Made):
    def script(self, name):
        """What each of a sample's lines puts on the tape, by kind."""
        kinds = {"START": START, "ANSWER": ANSWER, "SILENCE": SILENCE, "HOST": HOST, "RESULTS": RESULTS}
        lines = [line.split() for line in (SAMPLES / f"{name}.script").read_text().splitlines()]
        return [(kinds[word], bytes.fromhex("".join(rest))) for word, *rest in lines]

    def played(self, said):
        """A tape from nothing but what stands on it: what is due is asked of it, and put there."""
        tape, used, left = bytearray(1024 * BLOCK), 0, list(said)
        for _ in range(1024):
            kind, size, out = self.due(bytes(tape[:used * BLOCK]))
            if kind == 0:
                break
            payload = bytes(out[:size])
            if kind not in (COMMAND, DECISION):
                due, (kind, payload) = kind, left.pop(0)
                self.assertIn(kind, (due, SILENCE) if due == ANSWER else (due,))
                if kind == RESULTS:
                    self.assertEqual(size, len(payload))
            self.assertEqual(self.lab.lab_append(used, 7, kind, payload, tape), 0)
            used += 1
        self.assertEqual(left, [])
        return bytes(tape[:used * BLOCK])

    def test_every_sample(self):
        count = 0
        for path in sorted(SAMPLES.glob("*.script")):
            self.assertEqual(self.played(self.script(path.stem)), (SAMPLES / f"{path.stem}.tape").read_bytes(), path.stem)
            count += 1
        self.assertEqual(count, len(list(SAMPLES.glob("*.script"))))

    def test_what_is_due_is_what_bin_judge_says(self):
        """At each cut of a sample, and of the damaged ones nothing that could be gone on with."""
        for name in ("online-approved", "offline-pin", "terminated"):
            tape = (SAMPLES / f"{name}.tape").read_bytes()
            for count in range(len(tape) // BLOCK):
                kind, size, out = self.due(tape[:count * BLOCK])
                block = tape[count * BLOCK:(count + 1) * BLOCK]
                self.assertEqual(kind, block[8])
                if kind in (COMMAND, DECISION):
                    self.assertEqual(bytes(out[:size]), block[12:12 + int.from_bytes(block[10:12], "big")])
                    self.assertEqual(set(out[size:]), {0xA5})
                    self.assertEqual(self.due(tape[:count * BLOCK], size - 1), (TOO_SHORT, size, bytearray(b"\xa5" * (size - 1))))
            self.assertEqual(self.due(tape)[:2], (0, 0))
            self.assertEqual(self.due(tape + b"x"), (UNREADABLE, 2, bytearray(b"\xa5" * 600)))
        self.assertEqual(self.due((SAMPLES / "damaged.tape").read_bytes())[:2], (UNREADABLE, 3))
        self.assertEqual(self.due((SAMPLES / "no-such-day.tape").read_bytes())[:2], (0, 0))

    def test_an_entry_that_is_turned_away(self):
        tape = bytearray(b"\xa5" * 2 * BLOCK)
        for used, kind, payload, refusal in ((0, 0, b"", 7), (0, 8, b"", 7), (0, 1, bytes(497), 7), (2, 1, b"", 8), (1024, 1, b"", 8)):
            self.assertEqual(self.lab.lab_append(used, 7, kind, payload, tape), refusal)
        self.assertEqual(set(tape), {0xA5})
        with self.assertRaises(ValueError):
            self.lab.lab_append(0, 1 << 32, 1, b"", tape)
        with self.assertRaises(TypeError):
            self.lab.lab_append(0, 7, 1, b"", bytes(tape))


class Others(Made):
    def test_good_blocks_are_those_of_bin_recover(self):
        chance = random.Random(9)
        damaged, transit = ((SAMPLES / f"{name}.tape").read_bytes() for name in ("damaged", "transit"))
        for data in (damaged, transit[BLOCK:9 * BLOCK + 7], chance.randbytes(2000), b""):
            self.tape("any", data)
            expected = [line for line in self.bin("recover", "any").lines() if line.startswith("BLOCK")]
            told, step, block = [], 0, (ctypes.c_uint64 * 6)()
            while self.lab.lab_recover(data, step, block):
                at, number, session, kind, start, size = block
                told.append(f"BLOCK {at} {number} {session} {kind} {data[start:start + size].hex().upper() or '-'}")
                step = at + 1
            self.assertEqual(told, expected)

    def test_answers_to_reset_are_those_of_read_atr(self):
        """The outside captures of the program's own check."""
        lines = (ROOT / "crates/read_atr/stdin").read_text().splitlines()
        said = (ROOT / "crates/read_atr/stdout").read_text().splitlines()
        self.assertEqual(len(lines), len(said))
        count = 0
        for line, expected in zip(lines, said):
            word, _, digits = line.partition(" ")
            if word not in ("COLD", "WARM") or expected.startswith("ERROR"):
                continue
            told = (ctypes.c_uint64 * 12)()
            accepted = self.lab.lab_atr(bytes.fromhex(digits), word == "WARM", told)
            self.assertEqual(accepted, expected.startswith("ACCEPTED"), line)
            if accepted:
                numbers = list(map(int, re.findall(r"(?:F|D|N|interval|WI|IFSC|BWI|CWI)=([0-9]+)", expected)))
                start, end = map(int, re.search(r"historical=([0-9]+)\.\.([0-9]+)", expected).groups())
                own = numbers[4:] + [0] * (3 - len(numbers[4:]))
                marks = [mark in expected for mark in (" inverse ", " specific", " T=1 ")]
                self.assertEqual(list(told), [marks[0], *numbers[:4], *marks[1:], *own, start, end], line)
            else:
                place = int(re.search(r"@([0-9]+)", expected).group(1))
                self.assertEqual((bin(told[1]).count("1"), told[3]), (expected.count("@"), place), line)
            count += 1
        self.assertGreater(count, 500)

    def test_books(self):
        """The sample book, entered once more from its own list: the same bytes, and what it reopens as."""
        program("book_file")
        data = (SAMPLES / "campaign.book").read_bytes()
        self.tape("b.book", data)
        book, end = bytearray(len(data)), (ctypes.c_uint64 * 5)()
        for used, line in enumerate(self.bin("book", "b.book", "list").lines()):
            number, verdict, place, code = line.split()[:4]
            words = (int(number), WORDS.index(verdict), int(place), int(code))
            self.assertEqual(self.lab.lab_book_enter(used, words[0], 5, 0, 0, book), 1)
            self.assertEqual(self.lab.lab_book_enter(used, *words, book), 0)
            self.assertEqual(self.lab.lab_book_enter(used + 1, *words, book), 2)
        self.assertEqual(bytes(book), data)
        self.assertEqual(self.lab.lab_book_enter(len(data) // BLOCK, 77, 1, 0, 0, book), 3)
        self.assertEqual(self.lab.lab_book_open(data, end), 0)
        counts = self.bin("book", "b.book", "counts").out.split()
        self.assertEqual(list(end), [len(data) // BLOCK, *map(int, counts[1:8:2])])
        self.assertEqual((self.lab.lab_book_open(data[:-1], end), list(end)), (2, [len(data) // BLOCK - 1, 0, 0, 0, 0]))
        self.assertEqual((self.lab.lab_book_open(data + data[:BLOCK], end), end[0]), (4, len(data) // BLOCK))
