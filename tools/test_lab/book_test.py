"""bin/book and tools/kill-book."""
import os
import shlex
import subprocess

from trying import BLOCK, PASS, ROOT, Trial, closed, limited, program

LINE = b"PASS 3 0 0\n"


class Book(Trial):
    def book(self, name="B.book", count=3):
        for k in range(1, count + 1):
            self.check(self.bin("book", *self.named(name), "add", str(k), given=LINE), 0, out="entered\n")
        return self.folder / name

    def named(self, name):
        return ("--", name) if name.startswith("-") else (name,)

    def test_what_is_shown(self):
        self.book()
        self.check(self.bin("book", "B.book", "counts"), 0, out="PASS 3 FAIL 0 INCONCLUSIVE 0 UNREADABLE 0 TOTAL 3\n")
        self.check(self.bin("book", "B.book", "list"), 0, out="1 PASS 3 0\n2 PASS 3 0\n3 PASS 3 0\n")
        self.check(self.bin("book", "B.book", "check"), 0, out="good 3\n")
        self.check(self.bin("book", ROOT / "samples/campaign.book", "check"), 0, out="good 9\n")

    def test_refusals(self):
        self.book()
        self.check(self.bin("book", "B.book", "add", "2", given=b"FAIL 1 0 0\n"), 1, out="already entered\n")
        self.check(self.bin("book", "B.book", "list"), 0, out="2 PASS 3 0\n", no_out="FAIL")

    def test_many_at_once(self):
        lines = b"7 PASS 3 0 0\n8 FAIL 1 0 2\n7 FAIL 1 0 0\n9 UNREADABLE 2 3 0\n"
        self.check(self.bin("book", "B.book", "add", "-", given=lines), 1, out="entered\nentered\nalready entered\nentered\n")
        self.check(self.bin("book", "B.book", "list"), 0, out="7 PASS 3 0\n8 FAIL 1 0\n9 UNREADABLE 2 3\n")

    def test_output_that_is_lost(self):
        self.book()
        with open("/dev/full", "wb") as full:
            for words in (("counts",), ("list",), ("check",), ("add", "9")):
                self.check(self.bin("book", "B.book", *words, given=LINE, stdout=full), 2, err="standard output")
        for words in (("counts",), ("list",), ("check",), ("add", "10")):
            self.check(self.bin("book", "B.book", *words, given=LINE, stdout=None, preexec_fn=closed(1)), 2, err="standard output")
        self.check(self.bin("book", "B.book", "check"), 0, out="good 5\n")

    def test_a_line_that_is_not_the_judges(self):
        self.book()
        for line in (b"PASS 1 0 0 \n", b"PASS 1 0 0", b"PASS 1 0\n", b" PASS 1 0 0\n", b"PASS 1 0 0\nPASS 1 0 0\n", b"PASS 01 0 0\n", b"",
                     b"pass 1 0 0\n", b"PASS 1 0 0 0\n", b"PASS  1 0 0\n", b"PASS 1 0 0\r\n", b"PASS -1 0 0\n", b"OK 1 0 0\n"):
            self.check(self.bin("book", "B.book", "add", "9", given=line), 2, err="line", no_out="entered")
        self.check(self.bin("book", "B.book", "check"), 0, out="good 3\n")

    def test_the_program_takes_no_space_at_the_end_either(self):
        book = self.book()
        for words, line in ((("9",), b"PASS 1 0 0 \n"), (("9",), b"PASS 1 0 \n"), (("-",), b"9 PASS 1 0 0 \n")):
            done = subprocess.run([*program("book_file"), book, "add", *words], input=line, capture_output=True)
            self.assertEqual(done.stdout, b"no verdict\n", (words, line))
        done = subprocess.run([*program("book_file"), book, "add", "-"], input=b"x PASS 1 0 0\n" + b"1" * 300 + b"\n", capture_output=True)
        self.assertEqual(done.stdout, b"no number\nno number\n")

    def test_numbers(self):
        for number in ("4294967296", "18446744073709551617", "-1", "x", "", "1.0", "0x1"):
            self.check(self.bin("book", "B.book", "add", "--", number, given=LINE), 2, err="number")
        self.assertFalse((self.folder / "B.book").exists())
        self.check(self.bin("book", "B.book", "add", "4294967295", given=LINE), 0)

    def test_a_torn_block_is_cut_off_as_it_is_said(self):
        for name in ("B.book", "a b.book", "-rf", "it's.book", "$HOME.book"):
            book = self.book(name)
            with open(book, "ab") as file:
                file.write(b"x" * 100)
            done = self.check(self.bin("book", *self.named(name), "check"), 2, err="truncate -s 1536 -- ")
            self.check(self.bin("book", *self.named(name), "add", "9", given=LINE), 2, no_out="entered")
            order = done.err.decode().split("cut it off with: ")[1].split("  and enter")[0]
            self.assertEqual(shlex.split(order)[-1], name)
            self.assertEqual(subprocess.run(["sh", "-c", order], cwd=self.folder).returncode, 0)
            self.check(self.bin("book", *self.named(name), "check"), 0, out="good 3\n")
            self.check(self.bin("book", *self.named(name), "add", "9", given=LINE), 0, out="entered")

    def test_a_last_block_of_full_length_that_is_torn(self):
        book = self.book()
        data = book.read_bytes()
        book.write_bytes(data[:2 * BLOCK + 200] + bytes(BLOCK - 200))
        self.check(self.bin("book", "B.book", "check"), 2, err="truncate -s 1024 -- B.book")

    def test_damage_in_the_middle_is_not_cut_off(self):
        book = self.book()
        data = bytearray(book.read_bytes())
        data[BLOCK + 7] ^= 1
        book.write_bytes(data)
        self.check(self.bin("book", "B.book", "check"), 2, err="damaged", no_err="truncate")
        book.write_bytes(bytes(data) + b"x" * 9)
        self.check(self.bin("book", "B.book", "check"), 2, no_err="truncate")

    def test_files_that_are_no_book(self):
        self.tape("README", b"Hello, world\n" * 50)
        self.tape("short", b"Hello")
        self.tape("some.tape", PASS)
        self.tape("zeros", bytes(2 * BLOCK))
        for name in ("README", "short", "some.tape", "zeros"):
            before = (self.folder / name).read_bytes()
            for words in (("check",), ("counts",), ("list",), ("add", "1")):
                self.check(self.bin("book", name, *words, given=LINE), 2, err=name, no_err="truncate", no_out="entered")
            self.assertEqual((self.folder / name).read_bytes(), before)

    def test_an_empty_tape_is_not_added_to(self):
        self.tape("new.tape", b"")
        self.check(self.bin("book", "new.tape", "add", "1", given=LINE), 2, err="name of a tape")
        self.assertEqual((self.folder / "new.tape").read_bytes(), b"")

    def test_pipes_folders_and_nothing(self):
        os.mkfifo(self.folder / "pipe")
        for name in ("pipe", ".", "missing", "/dev/null"):
            for words in (("check",), ("counts",), ("list",)):
                self.check(self.bin("book", name, *words, seconds=30), 2, err=name)
        self.check(self.bin("book"), 2, err="book: ")
        self.check(self.bin("book", "B.book"), 2)
        self.check(self.bin("book", "B.book", "adds", "1"), 2)

    def test_a_short_write_is_said(self):
        self.book(count=1)
        done = self.bin("book", "B.book", "add", "2", given=LINE, preexec_fn=limited(BLOCK + 188))
        self.check(done, 2, err="only a part of the block could be stored", no_err="Success", no_out="entered")
        self.check(self.bin("book", "B.book", "check"), 2, err="truncate -s 512 -- B.book")
        os.truncate(self.folder / "B.book", BLOCK)
        done = self.bin("book", "B.book", "add", "2", given=LINE, preexec_fn=limited(BLOCK))
        self.check(done, 2, err="File too large", no_out="entered")
        self.check(self.bin("book", "B.book", "check"), 0, out="good 1\n")


class KillBook(Trial):
    def test_it_kills_and_finds_every_entry(self):
        done = subprocess.run([ROOT / "tools/kill-book", "40"], cwd=self.folder, capture_output=True, timeout=300)
        self.assertEqual(done.returncode, 0, done)
        self.assertRegex(done.stdout, rb"40 times, \d+ killed before the last answer, \d+ blocks torn, \d+ in the book")

    def test_it_fails_where_its_program_cannot_be_run(self):
        done = subprocess.run([ROOT / "tools/kill-book", "5", "/no/such/program"], cwd=self.folder, capture_output=True, timeout=60)
        self.assertEqual(done.returncode, 1, done)
        self.assertNotIn(b"tried,", done.stdout)

    def test_it_fails_where_nothing_is_entered(self):
        for words in (("5", "true"), ("0",)):
            done = subprocess.run([ROOT / "tools/kill-book", *words], cwd=self.folder, capture_output=True, timeout=60)
            self.assertEqual(done.returncode, 1, done)
