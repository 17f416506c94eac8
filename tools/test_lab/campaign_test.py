"""bin/campaign: nothing vanishes, whatever the numbers, the names and the moments."""
import os
import random
import signal
import subprocess
import time

from trying import BLOCK, FAIL, INCONCLUSIVE, PASS, ROOT, UNREADABLE, Trial, limited

KILLS = 100


class OneNumber(Trial):
    def test_another_tape_under_a_number_that_is_entered(self):
        self.tape("one/t-1.tape", PASS)
        self.tape("two/t-1.tape", FAIL)
        self.check(self.bin("campaign", "B", "one/t-1.tape"), 0, out="1 PASS ")
        done = self.bin("campaign", "B", "two/t-1.tape")
        self.check(done, 1, out=("1 FAIL 0 0 0: not entered", "FAIL 0 "), err="two/t-1.tape: not entered")
        self.assertNotIn(b"already entered", done.out)

    def test_two_named_files_with_one_number(self):
        self.tape("one/t-1.tape", PASS)
        self.tape("two/t-1.tape", FAIL)
        self.tape("t-2.tape", PASS)
        done = self.bin("campaign", "B", "one/t-1.tape", "two/t-1.tape", "t-2.tape")
        self.check(done, 2, out=("2 PASS ", "TOTAL 1"), err=("one/t-1.tape: ", "two/t-1.tape: "), no_out="t-1.tape")

    def test_a_file_named_twice_is_taken_once(self):
        self.tape("t-1.tape")
        self.check(self.bin("campaign", "B", "t-1.tape", "./t-1.tape"), 0, out="TOTAL 1")

    def test_a_tape_that_changed_after_it_was_entered(self):
        self.tape("t-1.tape", PASS)
        self.check(self.bin("campaign", "B", "t-1.tape"), 0)
        self.tape("t-1.tape", FAIL)
        self.check(self.bin("campaign", "B", "t-1.tape"), 1, out="1 FAIL 0 0 0: not entered", err="has changed since it was entered")

    def test_a_change_that_leaves_the_verdict(self):
        self.tape("t-1.tape", PASS)
        self.check(self.bin("campaign", "B", "t-1.tape"), 0)
        other = next(path for path in sorted((ROOT / "samples").glob("*.tape")) if path.stat().st_size == PASS.stat().st_size
                     and path.read_bytes() != PASS.read_bytes() and path.stem == "without-capabilities")
        self.tape("t-1.tape", other)
        self.check(self.bin("campaign", "B", "t-1.tape"), 1, err="has changed since it was entered", no_out="already entered")

    def test_the_very_tape_again(self):
        self.tape("t-1.tape", PASS)
        self.tape("t-2.tape", PASS)
        self.check(self.bin("campaign", "B", "t-1.tape"), 0, out=": entered: t-1.tape")
        done = self.bin("campaign", "B", "t-1.tape", "t-2.tape")
        self.check(done, 0, out=("already entered: t-1.tape", ": entered: t-2.tape", "TOTAL 2"))

    def test_an_entry_whose_tape_is_not_known(self):
        self.tape("t-1.tape", PASS)
        self.check(self.bin("campaign", "B", "t-1.tape"), 0)
        self.check(self.bin("book", "B/0001.book", "add", "7", given=b"PASS 3 0 0\n"), 0, out="entered")
        self.tape("t-7.tape", PASS)
        self.check(self.bin("campaign", "B", "t-7.tape"), 1, err="is not known", no_out="already")
        self.tape("t-8.tape", PASS)
        self.check(self.bin("campaign", "B", "t-8.tape"), 0, out="TOTAL 3")
        self.check(self.bin("campaign", "B", "t-8.tape"), 0, out="already entered")

    def test_not_all_pass_is_status_1(self):
        self.tape("t-1.tape", INCONCLUSIVE)
        self.check(self.bin("campaign", "B", "t-1.tape"), 1, out=("entered", "INCONCLUSIVE 1"))
        self.check(self.bin("campaign", "B", "t-1.tape"), 1, out="already entered")


class Numbers(Trial):
    def test_a_number_that_would_wrap(self):
        self.tape("x.tape")
        self.tape("t-2.tape")
        done = self.bin("campaign", "B", "18446744073709551617=x.tape", "t-2.tape")
        self.check(done, 2, out=("2 PASS", "TOTAL 1"), err="18446744073709551617", no_out="\n1 ")
        self.assertFalse(done.out.startswith(b"1 "), done)

    def test_a_time_stamp_as_a_number(self):
        self.tape("20260630235959.tape")
        self.tape("t-2.tape")
        self.check(self.bin("campaign", "B", "20260630235959.tape", "t-2.tape"), 2, out=("2 PASS", "TOTAL 1"),
                   err="20260630235959.tape: 20260630235959: not a number from 0 to 4294967295")

    def test_the_largest_number(self):
        self.tape("x.tape")
        self.check(self.bin("campaign", "B", "4294967295=x.tape"), 0, out="4294967295 PASS")
        self.check(self.bin("campaign", "B", "4294967296=x.tape"), 2, err="x.tape")

    def test_digits_that_are_no_number(self):
        for name in ("tape-3.mp4", "tape-3.tape.bak", "3tapes.tape", "night.tape", "t-\u0663.tape", "3=4"):
            self.tape(name)
        done = self.bin("campaign", "B", "tape-3.mp4", "tape-3.tape.bak", "3tapes.tape", "night.tape", "t-\u0663.tape", "./3=4")
        self.check(done, 2, err=("tape-3.mp4: no number", "3tapes.tape: no number", "night.tape: no number"), no_out="PASS")

    def test_the_number_of_a_name_is_said(self):
        self.tape("v2/night-000417.tape")
        self.check(self.bin("campaign", "B", "v2/night-000417.tape"), 0, out="417 PASS")

    def test_signs_and_spaces(self):
        self.tape("x.tape")
        for word in ("-1=x.tape", "+1=x.tape", " 1=x.tape", "1 =x.tape", "0x1=x.tape", "1e3=x.tape", "=x.tape"):
            done = self.bin("campaign", "B", "--", word)
            self.check(done, 2, no_out="entered")


class NothingAsked(Trial):
    def test_no_tapes(self):
        self.check(self.bin("campaign", "B"), 2, err="no tape is named")

    def test_nothing_at_all(self):
        self.check(self.bin("campaign"), 2, err="no folder of books")

    def test_an_empty_folder(self):
        (self.folder / "none").mkdir()
        self.check(self.bin("campaign", "B", "none"), 2, err="no tapes in this folder")

    def test_the_books_forgotten(self):
        tape = self.tape("t-1.tape", b"")
        self.tape("t-2.tape")
        for words in (("t-1.tape", "t-2.tape"), ("1=t-1.tape", "2=t-2.tape"), ("new.tape", "t-2.tape")):
            self.check(self.bin("campaign", *words), 2, err="is no folder of books")
        with open(tape, "rb") as file:
            self.assertEqual(file.read(), b"")
        self.assertEqual(sorted(os.listdir(self.folder)), ["t-1.tape", "t-2.tape"])

    def test_a_file_for_the_folder(self):
        self.tape("night.book", b"")
        self.tape("t-2.tape")
        self.check(self.bin("campaign", "night.book", "t-2.tape"), 2, err="is no folder of books")
        self.assertEqual((self.folder / "night.book").read_bytes(), b"")


class AtOnce(Trial):
    def test_two_campaigns_on_one_folder(self):
        tapes = [sorted(self.tapes("one", 40).glob("*.tape")), sorted(self.tapes("two", 40, first=101).glob("*.tape"))]
        for trial in range(6):
            both = [self.start("campaign", f"B{trial}", *some) for some in tapes]
            done = [(process.communicate(), process.returncode) for process in both]
            for (out, err), status in done:
                if status == 2:
                    self.assertIn(b"another process is adding to it", err)
                    self.assertNotIn(b"entered", out)
                else:
                    self.assertEqual((status, out.count(b": entered: ")), (1, 40), err)
            told = sum(status == 2 for _, status in done)
            self.assertEqual(self.counts(f"B{trial}")[4], 80 - 40 * told)

    def test_the_second_goes_on_later(self):
        self.tapes("one", 8)
        with open(os.open(self.make("B") / "lock", os.O_RDWR | os.O_CREAT), "w") as lock:
            import fcntl
            fcntl.flock(lock, fcntl.LOCK_EX)
            self.check(self.bin("campaign", "B", "one"), 2, err="another process is adding to it", no_out="entered")
        self.check(self.bin("campaign", "B", "one"), 1, out="TOTAL 8")

    def test_the_program_holds_the_lock_too(self):
        """Where its front is killed, the next one waits until the program has ended."""
        from lab import books, programs
        from lab.words import Undone
        name = os.fsencode(self.folder / "B.book")
        with books.locked(name) as lock:
            talk = programs.Talk(books.words() + [name, "add", "-"], keep=(lock,))
            self.assertEqual(talk.ask(b"1 PASS 3 0 0\n"), b"entered\n")
        with self.assertRaises(Undone):
            books.take_lock(name, time.monotonic())
        talk.close()
        os.close(books.take_lock(name, time.monotonic()))

    def make(self, name):
        (self.folder / name).mkdir()
        return self.folder / name

    def test_many_hands_on_one_book(self):
        processes = [self.start("book", "B.book", "add", str(k)) for k in range(12)]
        for process in processes:
            process.stdin.write(b"PASS 3 0 0\n")
            process.stdin.close()
        for process in processes:
            self.assertEqual(process.stdout.read(), b"entered\n")
            process.stdout.close()
            process.stderr.close()
            self.assertEqual(process.wait(), 0)
        self.check(self.bin("book", "B.book", "check"), 0, out="good 12\n")


class Books(Trial):
    def test_the_next_book_where_one_is_full(self):
        (self.folder / "B").mkdir()
        lines = b"".join(b"%d PASS 3 0 0\n" % (10000 + k) for k in range(4095))
        self.check(self.bin("book", "B/0001.book", "add", "-", given=lines), 0)
        self.tapes("one", 4)
        self.check(self.bin("campaign", "B", "one"), 1, out="TOTAL 4099")
        self.check(self.bin("book", "B/0001.book", "check"), 0, out="good 4096")
        self.check(self.bin("book", "B/0002.book", "check"), 0, out="good 3")
        self.check(self.bin("campaign", "B", "one"), 1, out="TOTAL 4099", no_out=": entered: ")

    def test_a_number_is_looked_for_in_all_books(self):
        (self.folder / "B").mkdir()
        self.check(self.bin("book", "B/0001.book", "add", "5", given=b"PASS 3 0 0\n"), 0)
        self.check(self.bin("book", "B/0002.book", "add", "6", given=b"PASS 3 0 0\n"), 0)
        self.tape("t-5.tape")
        self.check(self.bin("campaign", "B", "t-5.tape"), 1, err="stands in a book", out="TOTAL 2")

    def test_sha256sum_takes_the_list(self):
        self.tape("t-1.tape")
        self.tape("odd \\ na\nme-2.tape", FAIL)
        self.tape(b"not utf-8 \xff-3.tape", INCONCLUSIVE)
        self.check(self.bin("campaign", "B", "."), 1, out="TOTAL 3")
        done = subprocess.run(["sha256sum", "-c", "B/0001.sha256"], cwd=self.folder, capture_output=True)
        self.assertEqual(done.returncode, 0, done)
        self.assertEqual(done.stdout.count(b": OK"), 3, done)
        self.check(self.bin("campaign", "B", "."), 1, out="already entered", no_out=": entered: ")
        self.tape("t-1.tape", FAIL)
        self.assertNotEqual(subprocess.run(["sha256sum", "-c", "B/0001.sha256"], cwd=self.folder, capture_output=True).returncode, 0)

    def test_a_torn_book_is_not_added_to(self):
        self.tape("t-1.tape")
        self.check(self.bin("campaign", "B", "t-1.tape"), 0)
        with open(self.folder / "B/0001.book", "ab") as book:
            book.write(b"x" * 100)
        self.tape("t-2.tape")
        self.check(self.bin("campaign", "B", "t-2.tape"), 2, err="truncate -s 512 -- B/0001.book", no_out="entered")
        self.assertEqual((self.folder / "B/0001.book").stat().st_size, 612)

    def test_lines_of_the_list_that_came_to_nothing(self):
        self.tape("t-1.tape")
        self.tape("t-2.tape", FAIL)
        self.check(self.bin("campaign", "B", "t-1.tape"), 0)
        with open(self.folder / "B/0001.sha256", "ab") as lines:
            lines.write(b"0" * 64 + b"  /never/entered-2.tape\n0123")
        self.check(self.bin("campaign", "B", "t-2.tape"), 1, out=": entered: ")
        self.check(self.bin("campaign", "B", "t-2.tape"), 1, out="already entered")

    def test_bad_tapes_do_not_stop_the_others(self):
        self.tape("t-1.tape")
        self.tape("t-4.tape", UNREADABLE)
        (self.folder / "t-2.tape").mkdir()
        os.mkfifo(self.folder / "t-3.tape")
        done = self.bin("campaign", "B", "t-1.tape", "2=t-2.tape", "t-3.tape", "9=missing.tape", "t-4.tape", seconds=60)
        self.check(done, 2, out=("1 PASS", "4 UNREADABLE", "TOTAL 2"),
                   err=("t-2.tape: is a folder", "t-3.tape: is a named pipe", "missing.tape: "))


class Faults(Trial):
    def test_a_file_size_limit(self):
        self.tapes("one", 40)
        done = self.bin("campaign", "B", "one", preexec_fn=limited(19 * BLOCK + 100))
        self.check(done, 2, err="only a part of the block could be stored", no_err="Success")
        self.assertEqual(done.out.count(b": entered: "), 19)
        book = self.folder / "B/0001.book"
        self.check(self.bin("campaign", "B", "one"), 2, err=f"truncate -s {19 * BLOCK}")
        os.truncate(book, 19 * BLOCK)
        self.assertEqual(self.counts("B")[4], 19)
        self.check(self.bin("campaign", "B", "one"), 1, out="TOTAL 40")

    def test_output_that_is_lost(self):
        self.tapes("one", 4)
        with open("/dev/full", "wb") as full:
            self.check(self.bin("campaign", "B", "one", stdout=full), 2, err="standard output")
        self.check(self.bin("campaign", "B", "one"), 1, out="TOTAL 4")

    def test_killed_at_any_moment(self):
        """Every entry that was said to be entered is in a book, for each kill at most one more is, and the same command goes on."""
        self.tapes("0", 50)
        began = time.monotonic()
        self.check(self.bin("campaign", "B", "0"), 1, out="TOTAL 50")
        whole = time.monotonic() - began
        chance, killed, between, said = random.Random(36), 0, 0, set(range(1, 51))
        for trial in range(1, KILLS + 1):
            self.tapes(str(trial), 50, first=50 * trial + 1)
            process = self.start("campaign", "B", str(trial), start_new_session=True)
            time.sleep(chance.uniform(0.5, 1.1) * whole)
            process.kill()
            out = process.communicate()[0]
            killed += process.returncode == -signal.SIGKILL
            new = {int(line.split()[0]) for line in out.split(b"\n")[:-1] if b": entered: " in line}
            between += 0 < len(new) < 50
            said |= new
            held = self.held()
            self.assertLessEqual(said, held, "what was said to be entered is not in a book")
            self.assertLessEqual(len(held - said), 1)
            said = held
        self.assertGreater(killed, KILLS // 4, "it was not killed often enough")
        self.assertGreater(between, 0, "it was never killed between two entries")
        folders = [str(trial) for trial in range(KILLS + 1)]
        self.check(self.bin("campaign", "B", *folders), 1, out=f"TOTAL {50 * (KILLS + 1)}")
        done = self.bin("campaign", "B", *folders)
        self.assertEqual((done.out.count(b"already entered"), done.out.count(b": entered: ")), (50 * (KILLS + 1), 0))
        for part in sorted((self.folder / "B").glob("*.sha256")):
            self.assertEqual(subprocess.run(["sha256sum", "-c", "--quiet", part], cwd=self.folder).returncode, 0)

    def held(self):
        """The numbers in all books, when whoever was adding has ended."""
        from lab import books
        numbers = set()
        for book in sorted((self.folder / "B").glob("*.book")):
            with books.locked(os.fsencode(book), wait=5):
                time.sleep(0.05)
            listed = self.check(self.bin("book", book, "list"), 0)
            numbers |= {int(line.split()[0]) for line in listed.out.splitlines()}
        return numbers
