"""The programs behind the front: one place that starts them, built trees without the kit, and the other commands."""
import contextlib
import json
import os
import pathlib
import pty
import random
import re
import shutil
import subprocess

from trying import PASS, ROOT, SAMPLES, Trial, closed, program, without_kit

COMMANDS = ("judge", "explain", "campaign", "book", "recover", "play", "report", "run", "start", "card", "tape-from-log", "log-from-tape",
            "install")
START = re.compile(r"START ([0-9A-F]+)")


def script(name):
    return (SAMPLES / f"{name}.script").read_bytes()


class Everywhere(Trial):
    def test_help_and_version(self):
        for name in COMMANDS:
            done = self.check(self.bin(name, "--help"), 0, out=(f"bin/{name} ", "Example:", "Status:"))
            self.assertEqual(done.err, b"")
            self.check(self.bin(name, "--version"), 0, out="front: commit ")
        self.assertEqual(os.listdir(self.folder), [])

    def test_the_version_of_a_program(self):
        program("lab_tapes")
        done = self.check(self.bin("judge", "--version"), 0, out=("lab_tapes: commit ", "logic=proved functions=", "rattle-kit"))
        import hashlib
        self.assertIn(hashlib.sha256((ROOT / "target/bin/lab_tapes").read_bytes()).hexdigest().encode(), done.out)

    def test_an_option_that_is_none(self):
        for name in COMMANDS:
            self.check(self.bin(name, "--no-such-option"), 2, err="--no-such-option is no option")

    def test_the_emulator_stands_in_one_place(self):
        found = [path for folder in ("bin", "lab", "tools") for path in (ROOT / folder).rglob("*")
                 if path.is_file() and path.parent.name != "test_lab" and "qemu" in path.read_text(errors="replace")]
        self.assertEqual({path.name for path in found}, {"programs.py", "install.py"})

    def test_nothing_is_written_to_the_repository(self):
        self.assertFalse(list((ROOT / "lab").rglob("__pycache__")) + list((ROOT / "tools").rglob("__pycache__")))


class Play(Trial):
    def test_a_tape_is_the_sample(self):
        self.check(self.bin("play", "new.tape", "7", given=script("online-pin")), 0, out="DECISION 010080000480006800\n")
        self.assertEqual((self.folder / "new.tape").read_bytes(), (SAMPLES / "online-pin.tape").read_bytes())

    def test_a_tape_that_is_there_is_refused(self):
        self.tape("old.tape", PASS)
        self.check(self.bin("play", "old.tape", "7", given=script("online-pin")), 2, err="old.tape: is there already", no_out="COMMAND")
        done = subprocess.run([*program("play"), "old.tape", "7"], input=script("online-pin"), capture_output=True, cwd=self.folder)
        self.assertEqual(done.stdout, b"")
        self.assertIn(b"old.tape: File exists", done.stderr)
        self.assertEqual((self.folder / "old.tape").read_bytes(), PASS.read_bytes())

    def test_over(self):
        self.tape("old.tape", PASS)
        self.check(self.bin("play", "--over", "old.tape", "7", given=script("online-pin")), 0, out="DECISION")
        self.assertEqual((self.folder / "old.tape").read_bytes(), (SAMPLES / "online-pin.tape").read_bytes())

    def test_no_file_named_like_an_option(self):
        for word in ("--help", "--version", "-h", "--overt"):
            done = subprocess.run([*program("play"), word], input=script("online-pin"), capture_output=True, cwd=self.folder)
            self.assertEqual(done.stdout, b"")
            self.assertIn(b"usage: play", done.stderr)
        self.bin("play", "--help", given=script("online-pin"))
        self.assertEqual(os.listdir(self.folder), [])

    def test_a_block_is_on_the_disk_before_its_line(self):
        """A pipe takes a block and has no disk: fsync fails, so nothing may be said."""
        os.mkfifo(self.folder / "pipe")
        reader = os.open(self.folder / "pipe", os.O_RDONLY | os.O_NONBLOCK)
        self.addCleanup(os.close, reader)
        done = subprocess.run([*program("play"), "--over", "pipe", "7"], input=script("online-pin"), capture_output=True, cwd=self.folder)
        self.assertEqual(done.stdout, b"")
        self.assertIn(b"tape: ", done.stderr)

    def test_a_full_disk(self):
        done = subprocess.run([*program("play"), "--over", "/dev/full", "7"], input=script("online-pin"), capture_output=True)
        self.assertEqual((done.stdout, done.stderr), (b"", b"tape: No space left on device\n"))

    def test_bad_words(self):
        for words in (("new.tape", "4294967296"), ("new.tape", "x"), ("new.tape", "7", "8"), ("--over",), ("new.tape", "-1")):
            self.check(self.bin("play", *words, given=script("online-pin")), 2, no_out="COMMAND")
        self.assertEqual(os.listdir(self.folder), [])


class Run(Trial):
    def test_any_program(self):
        self.check(self.bin("run", "read_atr", given=b"COLD 3B8001\n"), 0, out="REFUSED TB1-ABSENT@2 TB3-ABSENT@3 TCK-ABSENT@3")
        lines = b"COMMAND 00A4040002616200\nCARD A4\nCARD 6103C0A1A2A39000\n"
        self.check(self.bin("run", "exchange_t0", given=lines), 0, out="ANSWER A1A2A39000")
        self.check(self.bin("run", "no_such"), 2, err="no_such is no program")
        self.check(self.bin("run", "slices"), 2, err="slices is no program")
        self.check(self.bin("run"), 2, err="no program is named")

    def test_sessions_over_both_layers(self):
        for tool, card in (("play-t0", "online-over-t0.card"), ("play-t1", "online-over-t1.card")):
            tape = self.folder / f"{tool}.tape"
            done = subprocess.run([ROOT / "tools" / tool, SAMPLES / card, tape, "7"], capture_output=True, cwd=self.folder)
            self.assertEqual(done.returncode, 0, done)
            self.assertEqual(tape.read_bytes(), (SAMPLES / "online-approved.tape").read_bytes())

    def test_what_a_layer_hands_on(self):
        """An answer of 514 bytes ends the session with reason 1; where the layer refuses, or waits for a byte that never comes, there is silence."""
        start = (SAMPLES / "online-over-t0.card").read_text().splitlines()[0]
        long_answer = "A4" + 2 * ("6100C0" + bytes(range(256)).hex().upper()) + "9000"
        for card, last, line in (
            (long_answer, b"DECISION 030100000000000000", "PASS 4 0 0"),
            ("A4FF", b"CLOSED", "INCONCLUSIVE 3 0 0"),
            ("A461", b"CLOSED", "INCONCLUSIVE 3 0 0"),
        ):
            with self.subTest(card=card[:8]):
                script, tape = self.folder / "a.card", self.folder / "a.tape"
                script.write_text(f"{start}\nCARD {card}\n")
                tape.unlink(missing_ok=True)
                done = subprocess.run([ROOT / "tools" / "play-t0", script, tape, "7"], capture_output=True)
                self.assertEqual((done.returncode, done.stdout.splitlines()[-1].strip()), (0, last))
                self.check(self.bin("judge", str(tape)), 0 if line.startswith("PASS") else 1, out=line)


class Start(Trial):
    def samples(self):
        found = {}
        for path in sorted(SAMPLES.glob("*.tape")):
            data = path.read_bytes()
            if data[8] == 1:
                found[path.stem] = data[12:12 + int.from_bytes(data[10:12], "big")]
        return found

    def test_there_and_back(self):
        lengths = set()
        for name, data in self.samples().items():
            done = self.bin("start", data.hex())
            fields = done.out.decode().split("\n")[:-1]
            again = self.bin("start", *fields)
            self.assertEqual(again.out.decode(), f"START {data.hex().upper()}\n", name)
            self.assertEqual(done.status, again.status)
            lengths.add(len(data))
        self.assertEqual(lengths, {74, 77})

    def test_the_kernel_says_which_are_valid(self):
        self.check(self.bin("start", "amount=125.00", "currency=826", "date=2026-06-30"), 0, out="START 02000000012500", err="accepted")
        self.check(self.bin("start", "date=2026-02-30"), 1, out="START ", err="refused 3")
        self.check(self.bin("start", "type=3"), 1, err="refused")
        for words in (("length=74",), ("length=75",), ("length=82", "rest=0102030405"), ("length=0",), ("aid=A0",), ("random=0",)):
            self.check(self.bin("start", *words), 1, out="START ", err="refused")

    def test_any_bytes_are_told(self):
        for data in (bytes(77), b"\xff" * 77, bytes(range(74)), bytes(80), b"", b"\x02"):
            done = self.bin("start", "START", data.hex()) if data else self.bin("start", "length=0")
            self.assertEqual(done.status, 1, done)

    def test_what_is_made_goes_to_play(self):
        line = self.bin("start", "amount=0.01").out
        done = self.bin("play", given=line)
        self.check(done, 0, out="COMMAND 00A40400")

    def test_bad_fields(self):
        for words in (("amount=1.5",), ("amount=-1",), ("amount=1e3",), ("amount=9999999999999",), ("currency=GBP",), ("date=30.06.2026",),
                      ("date=2026-6-3",), ("type=256",), ("what=1",), ("amount",), ("amount=1.00", "amount=1.00"), ("aid=" + "A0" * 17,),
                      ("length=x",), ("length=497",), ("rest=00",), ("capabilities=E0F8C8", "length=74"), (),
                      ("zz",), ("version=1",), ("denial=00",)):
            self.check(self.bin("start", *words), 2, no_out="START")


class Recover(Trial):
    def test_the_damaged_sample(self):
        done = self.check(self.bin("recover"), 1, err="bundled damaged sample", out=("13 blocks found in 15 steps, 0 bytes after them\n",
                          "no block found at steps 4, 7\n", "session 7: blocks 0-3, 5-6, 8-14\n", "END 15 0\n"))
        self.check(self.bin("recover", SAMPLES / "damaged.tape"), 1, out=done.out.decode().split("\n", 1)[1])
        self.check(self.bin("recover", PASS), 0, out="12 blocks found in 12 steps, 0 bytes after them\n")

    def test_lines_that_are_cut(self):
        from lab.recovery import summary
        good = [b"BLOCK 0 0 7 1 00\n", b"END 1 0\n"]
        self.assertEqual(summary(good).lines(), ["1 blocks found in 1 steps, 0 bytes after them", "session 7: blocks 0"])
        self.assertTrue(summary(good).whole())
        for lines in (good[:1], [good[0], b"END 1 0"], [good[0], b"END 1"], [good[0], b"END 1 \n"], [b"BLOCK 0 0 7 1 0\n", good[1]],
                      [good[1], good[0]], [], [b"BLOCK 0 0 7 1\n", good[1]], good + good, [b"BLOCK 3 0 7 1 00\n", good[1]]):
            self.assertIsNone(summary(lines), lines)

    def test_bad_files_do_not_stop_the_others(self):
        os.mkfifo(self.folder / "pipe")
        self.check(self.bin("recover", "pipe", "missing", ".", PASS, seconds=30), 2, out="12 blocks found",
                   err=("pipe: is a named pipe", "missing: ", ".: is a folder"))

    def test_output_that_is_lost(self):
        with open("/dev/full", "wb") as full:
            self.check(self.bin("recover", PASS, stdout=full), 2, err="standard output")
        self.check(self.bin("recover", PASS, stdout=None, preexec_fn=closed(1)), 2, err="standard output")

    def test_any_bytes(self):
        chance = random.Random(9)
        for size in (0, 1, 512, 5000):
            self.tape("any", chance.randbytes(size))
            done = self.bin("recover", "any")
            self.assertEqual(done.status, 0 if size == 0 else 1)
            self.assertIn(f"0 blocks found in {size // 512} steps, {size % 512} bytes after them", done.out.decode())


class Trees(Trial):
    def built(self):
        """A small copy of the tree with what is built."""
        program("lab_tapes")
        tree = self.folder / "tree"
        tree.mkdir()
        for name in ("bin", "lab", "crates", "samples"):
            shutil.copytree(ROOT / name, tree / name, symlinks=True, ignore=shutil.ignore_patterns("out"))
        shutil.copy(ROOT / "crates.txt", tree)
        (tree / "target/bin").mkdir(parents=True)
        (tree / "target/lab").mkdir()
        shutil.copy(ROOT / "target/bin/lab_tapes", tree / "target/bin")
        shutil.copy(ROOT / "target/lab/lab_tapes.json", tree / "target/lab")
        return tree

    def away(self, tree, name, *words, kit=False):
        folder, environment = without_kit()
        self.addCleanup(shutil.rmtree, folder, ignore_errors=True)
        if not kit:
            from lab import programs
            if programs.words_for("x")[0] != "x":
                environment["RATTLE_HOME"] = programs.kit_home()
        return subprocess.run([tree / "bin" / name, *words], env=environment, capture_output=True, cwd=self.folder)

    def test_a_built_tree_runs_without_the_kit(self):
        done = self.away(self.built(), "judge", PASS)
        self.assertEqual((done.returncode, done.stdout), (0, f"{PASS} PASS 12 0 0\n".encode()), done)

    def test_freshness_is_by_content(self):
        tree = self.built()
        for path in (tree / "crates/lab_tapes").rglob("*"):
            os.utime(path)
        os.utime(tree / "crates.txt")
        self.assertEqual(self.away(tree, "judge", PASS).returncode, 0)
        source = tree / "crates/judge/src/pieces.rt"
        times = source.stat()
        source.write_bytes(source.read_bytes().replace(b"0", b"1", 1))
        os.utime(source, ns=(times.st_atime_ns, times.st_mtime_ns))
        done = self.away(tree, "judge", PASS)
        self.assertEqual((done.returncode, done.stdout), (2, b""), done)
        self.assertIn(b"the Rattle kit is not here", done.stderr)

    def test_a_program_that_was_changed_is_not_started(self):
        tree = self.built()
        with open(tree / "target/bin/lab_tapes", "ab") as file:
            file.write(b"x")
        done = self.away(tree, "judge", PASS)
        self.assertEqual((done.returncode, done.stdout), (2, b""), done)

    def failing(self):
        """A tree whose program is missing, and a kit that fails."""
        tree = self.built()
        os.unlink(tree / "target/bin/lab_tapes")
        kit = self.folder / "kit/bin"
        kit.mkdir(parents=True)
        (kit / "rt").write_text("#!/bin/sh\nexec >&2\necho 'crate slices: modules loaded=7 checked=1'\necho 'the seventh seal'\nexit 1\n")
        (kit / "rt").chmod(0o755)
        return tree, dict(os.environ, PATH=f"{kit}:{os.environ['PATH']}", RATTLE_HOME="")

    def test_progress_where_somebody_looks(self):
        tree, environment = self.failing()
        ours, theirs = pty.openpty()
        process = subprocess.Popen([tree / "bin/judge", PASS], env=environment, stdout=subprocess.DEVNULL, stderr=theirs, cwd=self.folder)
        os.close(theirs)
        said = b""
        with contextlib.suppress(OSError):
            while True:
                said += os.read(ours, 4096)
        os.close(ours)
        self.assertEqual(process.wait(), 2)
        self.assertRegex(said, rb"1 of \d+: slices, \d+ s")

    def test_a_build_that_fails_is_told_with_its_last_lines(self):
        tree, environment = self.failing()
        done = subprocess.run([tree / "bin/judge", PASS], env=environment, capture_output=True, cwd=self.folder)
        self.assertEqual((done.returncode, done.stdout), (2, b""), done)
        for words in (b"proving and building lab_tapes: ", b"build.log", b"the seventh seal", b"could not be built (status 1"):
            self.assertIn(words, done.stderr)

    def test_an_installed_tree(self):
        self.check(self.bin("install", self.folder / "prefix", seconds=900), 0, out="installed in ")
        away = self.folder / "elsewhere"
        (self.folder / "prefix").rename(away)
        folder, environment = without_kit()
        self.addCleanup(shutil.rmtree, folder, ignore_errors=True)

        def run(name, *words, **more):
            return subprocess.run([away / "bin" / name, *words], env=environment, capture_output=True, cwd=self.folder, **more)
        self.assertEqual(run("judge", PASS).stdout, f"{PASS} PASS 12 0 0\n".encode())
        done = run("judge", "--version")
        self.assertIn(b"logic=proved", done.stdout, done)
        self.assertEqual(run("campaign", "B", f"1={PASS}").returncode, 0)
        self.assertEqual(run("book", "B/0001.book", "check").stdout, b"good 1\n")
        self.assertEqual(run("start", "amount=1.00").returncode, 0)
        self.assertEqual(run("recover", PASS).returncode, 0)
        self.assertIn(b"DECISION", run("play", "p.tape", input=script("online-pin")).stdout)
        self.assertIn(b"REFUSED", run("run", "read_atr", input=b"COLD 3B8001\n").stdout)
        program_file = away / "share/jegunalofi/target/bin/lab_tapes"
        program_file.write_bytes(program_file.read_bytes() + b"x")
        self.assertEqual(run("judge", PASS).returncode, 2)
        stamp = json.loads((away / "share/jegunalofi/target/lab/lab_tapes.json").read_text())
        self.assertIn("check", stamp)

    def test_install_leaves_what_is_there(self):
        (self.folder / "prefix/bin").mkdir(parents=True)
        (self.folder / "prefix/bin/play").write_text("somebody's")
        self.check(self.bin("install", self.folder / "prefix", seconds=900), 2, err="is there already and not ours")
        self.assertEqual((self.folder / "prefix/bin/play").read_text(), "somebody's")


class Tools(Trial):
    def test_a_tool_that_tried_nothing_fails(self):
        for words in (("tools/compare-atr", "0"), ("tools/compare-t0", "0"), ("tools/compare-t1", "0"), ("tools/try-edits", "verdict")):
            done = subprocess.run([ROOT / words[0], *words[1:]], capture_output=True, cwd=self.folder)
            self.assertEqual(done.returncode, 1, (words, done))

    def test_the_last_line_counts_what_did_not_run(self):
        tool = ROOT / "tools/test-lab"
        done = subprocess.run([tool, "no test has this name"], capture_output=True, text=True)
        self.assertEqual((done.returncode, done.stdout.splitlines()[-1]), (1, "0 passed, 0 failed, 0 not run"))
        self.assertTrue(pathlib.Path(tool).exists())
