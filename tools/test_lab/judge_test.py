"""bin/judge: every tape gets its line, in order, and nothing else does."""
import hashlib
import json
import os
import pathlib
import random
import signal
import socket
import subprocess
import threading
import time
import xml.etree.ElementTree as xml
import zlib

from trying import FAIL, INCONCLUSIVE, PASS, ROOT, SAMPLES, UNREADABLE, Trial, closed, limited, program

EXPECTED = {PASS: "PASS 12 0 0", FAIL: "FAIL 0 0 0", INCONCLUSIVE: "INCONCLUSIVE 9 0 0", UNREADABLE: "UNREADABLE 4 3 0"}
MANY = 10000
ODD_NAMES = [b"with space.tape", b" lead.tape", b"trail .tape", b"-dash.tape", b"--jobs.tape", b"it's \"quoted\".tape",
             b"$HOME `id`.tape", b"line\nfeed.tape", b"\nPASS 1 0 0.tape", b"back\\slash.tape", b"carriage\rreturn.tape", b"tab\t.tape",
             b"not utf-8 \xff\xfe.tape",
             "umlaut ä.tape".encode(), "日本.tape".encode(), b"\x1b[31mred.tape", b"x" * 240 + b".tape", b"a;b&c|d.tape", b"*.tape",
             b"%s%n.tape"]


class Lines(Trial):
    def test_each_verdict_and_its_status(self):
        for path, line in EXPECTED.items():
            done = self.bin("judge", path)
            self.check(done, 0 if path == PASS else 1)
            self.assertEqual(done.out.decode(), f"{path} {line}\n")

    def test_the_samples(self):
        done = self.check(self.bin("judge", "--samples"), 1)
        self.assertEqual(len(done.lines()), len(list(SAMPLES.glob("*.tape"))))
        done = self.check(self.bin("judge"), 1, err="bundled samples")
        self.assertEqual(len(done.lines()), len(list(SAMPLES.glob("*.tape"))))

    def test_the_judge_of_01_says_the_same(self):
        for path in sorted(SAMPLES.glob("*.tape")):
            with open(path, "rb") as tape:
                alone = subprocess.run(program("judge_tape"), stdin=tape, capture_output=True).stdout
            self.assertEqual(self.bin("judge", path).out, os.fsencode(path) + b" " + alone)

    def test_in_the_order_asked(self):
        names = [f"t-{k}.tape" for k in range(300)]
        paths = list(EXPECTED)
        for k, name in enumerate(names):
            self.tape(name, paths[k % 4])
        for jobs in ("1", "2", "7"):
            done = self.check(self.bin("judge", "--jobs", jobs, *names), 1)
            self.assertEqual(done.lines(), [f"{name} {EXPECTED[paths[k % 4]]}" for k, name in enumerate(names)])

    def test_folders_and_names_on_standard_input(self):
        self.tape("a/2.tape")
        self.tape("a/b/1.tape", FAIL)
        self.tape("a/notes.txt", b"no tape")
        self.check(self.bin("judge", "a"), 1, out=("a/2.tape PASS 12 0 0\n", "a/b/1.tape FAIL 0 0 0\n"), no_out="notes")
        self.check(self.bin("judge", "-", given=b"a/2.tape\na/b/1.tape\n"), 1, out="a/2.tape PASS 12 0 0\na/b/1.tape FAIL 0 0 0\n")
        self.check(self.bin("judge", "-", given=b"a/2.tape\0a/b/1.tape\0"), 1, out="a/2.tape PASS 12 0 0\na/b/1.tape FAIL 0 0 0\n")
        self.check(self.bin("judge", "-", given=b"a/2.tape"), 0, out="a/2.tape PASS 12 0 0\n")

    def test_names_of_every_kind(self):
        paths = list(EXPECTED)
        for k, name in enumerate(ODD_NAMES):
            self.tape(name, paths[k % 4])
        done = self.check(self.bin("judge", "-", given=b"\0".join(ODD_NAMES) + b"\0"), 1)
        rows = done.out.split(b"\n")
        self.assertEqual(len(rows), len(ODD_NAMES) + 1)
        from lab.words import named
        for k, (name, row) in enumerate(zip(ODD_NAMES, rows)):
            line = EXPECTED[paths[k % 4]].encode()
            self.assertTrue(row.endswith(b" " + line), row)
            self.assertEqual(named(row[:-len(line) - 1]), name)
        self.assertEqual(self.bin("judge", "--", *ODD_NAMES).out, done.out)
        listed = self.check(self.bin("judge", "--jsonl", "out.jsonl", "--junit", "out.xml", "."), 1)
        self.assertEqual(len(listed.lines()), len(ODD_NAMES))
        with open(self.folder / "out.jsonl", "rb") as file:
            records = [json.loads(row) for row in file]
        found = {bytes.fromhex(one["tape_hex"]) if "tape_hex" in one else one["tape"].encode() for one in records}
        self.assertEqual(found, {b"./" + name for name in ODD_NAMES})
        self.assertEqual(len(xml.parse(self.folder / "out.xml").getroot()), len(ODD_NAMES))


class NothingAsked(Trial):
    def test_nothing_is_named(self):
        (self.folder / "none").mkdir()
        self.check(self.bin("judge", "--"), 2, err="no tape is named", no_out="PASS")
        self.check(self.bin("judge", "--jobs", "2"), 2, err="no tape is named", no_out="PASS")
        self.check(self.bin("judge", "none"), 2, err="none: no tapes in this folder", no_out="PASS")
        self.check(self.bin("judge", "-", given=b""), 2, err="no names on standard input", no_out="PASS")
        self.check(self.bin("judge", ""), 2, no_out="PASS")

    def test_options(self):
        for words in (("--what", PASS), ("--jobs", "0", PASS), ("--jobs", "x", PASS), ("--jobs", "-1", PASS), ("--jsonl",), ("-x", PASS),
                      ("--samples", PASS), ("--jobs", "99999999999999999999", PASS), ("--samples=1",)):
            self.check(self.bin("judge", *words), 2, no_out="PASS")


class BadFiles(Trial):
    def test_they_are_named_and_the_others_go_on(self):
        os.mkfifo(self.folder / "pipe.tape")
        (self.folder / "folder.tape").mkdir()
        unix = socket.socket(socket.AF_UNIX)
        unix.bind(os.path.relpath(self.folder / "socket.tape"))
        self.addCleanup(unix.close)
        os.symlink("nowhere", self.folder / "link.tape")
        os.symlink("loop.tape", self.folder / "loop.tape")
        self.tape("good.tape")
        names = ["pipe.tape", "missing.tape", "socket.tape", "link.tape", "loop.tape", "/dev/zero", "good.tape/x", "n" * 300, "good.tape"]
        done = self.check(self.bin("judge", *names, seconds=30), 2, out="good.tape PASS 12 0 0\n")
        self.assertEqual(len(done.lines()), 1)
        for name in names[:-1]:
            self.assertIn(f"{name}: ", done.err.decode())
        done = self.bin("judge", "folder.tape", "good.tape", seconds=30)
        self.check(done, 2, out="good.tape PASS 12 0 0\n", err="folder.tape: no tapes in")

    def test_a_file_that_may_not_be_read(self):
        path = self.tape("closed.tape")
        os.chmod(path, 0)
        if os.access(path, os.R_OK):
            done = self.as_nobody()
        else:
            done = self.bin("judge", "closed.tape", PASS)
        self.check(done, 2, out="PASS 12 0 0", err="closed.tape: cannot be opened")

    def as_nobody(self):
        os.chmod(self.folder, 0o755)

        def other():
            os.setgid(65534)
            os.setuid(65534)
        if subprocess.run(["cat", ROOT / "target/bin/lab_tapes"], stdout=subprocess.DEVNULL, preexec_fn=other).returncode:
            self.skipTest("run as root, and nobody may not read the programs")
        return self.bin("judge", "closed.tape", PASS, preexec_fn=other)

    def test_random_bytes(self):
        chance, names = random.Random(36), []
        for k in range(200):
            size = chance.choice((0, 1, 511, 512, 513, 1024, chance.randrange(6000)))
            names.append(f"r-{k}.tape")
            self.tape(names[-1], chance.randbytes(size))
        good, changed = PASS.read_bytes(), []
        for k in range(200):
            data = bytearray(good)
            data[chance.randrange(len(data))] ^= 1 << chance.randrange(8)
            changed.append(f"c-{k}.tape")
            self.tape(changed[-1], bytes(data))
        done = self.check(self.bin("judge", *names, *changed), 1)
        self.assertEqual(len(done.lines()), 400)
        self.assertNotIn(b" PASS ", done.out)

    def test_a_very_long_file(self):
        path = self.tape("long.tape", b"")
        os.truncate(path, 40 << 20)
        self.check(self.bin("judge", "long.tape"), 1, out="long.tape UNREADABLE 0 1 0\n")


class Changing(Trial):
    def test_a_file_that_grows_while_it_is_read(self):
        from lab import files
        path, whole = self.tape("t.tape", bytes(3 << 20)), os.read

        def read(descriptor, count):
            with open(path, "ab") as more:
                more.write(b"x")
            return whole(descriptor, count)
        self.changed(files, path, read)

    def test_a_file_that_is_written_over_while_it_is_read(self):
        from lab import files
        path, whole = self.tape("t.tape", PASS), os.read

        def read(descriptor, count):
            piece = whole(descriptor, count)
            with open(path, "r+b") as more:
                more.write(b"x")
            return piece
        self.changed(files, path, read)

    def changed(self, files, path, read):
        old, files.os.read = files.os.read, read
        try:
            with self.assertRaisesRegex(files.Unusable, "has changed while it was read"):
                files.Copy().take(path)
        finally:
            files.os.read = old

    def test_what_is_hashed_is_what_is_judged(self):
        """A file that is exchanged all the time: each line's sha256 is of the bytes that have its verdict, or it is an error."""
        path, stop = self.tape("t.tape", PASS), threading.Event()
        right = {hashlib.sha256(source.read_bytes()).hexdigest(): EXPECTED[source] for source in (PASS, FAIL)}
        contents = [source.read_bytes() for source in (PASS, FAIL)]

        def exchange():
            k = 0
            while not stop.is_set():
                k += 1
                with open(path, "r+b") as file:
                    file.write(contents[k % 2])
        thread = threading.Thread(target=exchange)
        thread.start()
        try:
            for k in range(3):
                self.bin("judge", "--jsonl", f"out{k}.jsonl", *["t.tape"] * 300)
        finally:
            stop.set()
            thread.join()
        seen, errors = set(), 0
        for k in range(3):
            with open(self.folder / f"out{k}.jsonl", "rb") as file:
                for row in file:
                    one = json.loads(row)
                    if one["verdict"] == "ERROR":
                        errors += 1
                        self.assertIn("changed", one["error"])
                    else:
                        line = f"{one['verdict']} {one['place']} {one['code']} {one['zeros']}"
                        if one["sha256"] in right:
                            self.assertEqual(line, right[one["sha256"]])
                        else:
                            self.assertNotEqual(one["verdict"], "PASS")
                        seen.add(line)
        self.assertGreater(errors + len(seen), 0)


class Reports(Trial):
    def test_json_lines(self):
        self.tape("night-000417.tape")
        self.tape("bad.tape", UNREADABLE)
        self.check(self.bin("judge", "--jsonl", "out.jsonl", "night-000417.tape", "bad.tape", "missing.tape"), 2)
        with open(self.folder / "out.jsonl", "rb") as file:
            first, second, third = [json.loads(row) for row in file]
        self.assertEqual(list(first), ["tape", "number", "session", "bytes", "sha256", "verdict", "place", "code", "zeros", "judge"])
        data = PASS.read_bytes()
        self.assertEqual((first["tape"], first["number"], first["session"], first["bytes"], first["sha256"]),
                         ("night-000417.tape", 417, 7, len(data), hashlib.sha256(data).hexdigest()))
        self.assertEqual((first["verdict"], first["place"], first["code"], first["zeros"]), ("PASS", 12, 0, 0))
        self.assertEqual((second["verdict"], second["place"], second["code"], second["number"]), ("UNREADABLE", 4, 3, None))
        self.assertEqual((third["verdict"], third["sha256"]), ("ERROR", None))
        self.assertIn("cannot be opened", third["error"])
        self.assertTrue(first["judge"])

    def test_what_was_due(self):
        """01, "The commands": SELECT names the AID of START. A wrong command, a START that cannot be, a silent card, a tape cut short."""
        good = (SAMPLES / "approved-offline.tape").read_bytes()
        select = "00A4040007A000000003101000"
        self.assertEqual(good[512 + 12:512 + 12 + 13].hex().upper(), select)
        block = bytearray(good[512:1024])
        block[12 + 11] ^= 1
        block[508:] = zlib.crc32(block[:508]).to_bytes(4, "big")
        (self.folder / "wrong.tape").write_bytes(good[:512] + block + good[1024:])
        (self.folder / "cut.tape").write_bytes(good[:1024])
        (self.folder / "started.tape").write_bytes(good[:512])
        names = ["wrong.tape", "cut.tape", "started.tape", str(SAMPLES / "no-such-day.tape"), str(SAMPLES / "silent-card.tape"), str(PASS)]
        self.check(self.bin("judge", "--jsonl", "out.jsonl", *names), 1)
        with open(self.folder / "out.jsonl", "rb") as file:
            wrong, cut, started, start, silent, passed = [json.loads(row) for row in file]
        self.assertEqual((wrong["verdict"], wrong["place"]), ("FAIL", 1))
        self.assertEqual(wrong["due"], {"kind": "COMMAND", "bytes": select})
        self.assertEqual(wrong["stood"], {"kind": "COMMAND", "bytes": select[:-4] + "1100"})
        self.assertEqual((cut["verdict"], cut["due"]), ("INCONCLUSIVE", {"kind": "ANSWER"}))
        self.assertEqual((started["verdict"], started["due"]), ("INCONCLUSIVE", {"kind": "COMMAND", "bytes": select}))
        self.assertEqual((start["due"], start["stood"]["kind"]), ({"kind": "START"}, "START"))
        self.assertEqual((silent["verdict"], silent["due"]), ("INCONCLUSIVE", {"kind": "ANSWER"}))
        self.assertFalse({"due", "stood"} & set(passed))
        self.assertNotIn("stood", cut)

    def test_it_goes_on_where_it_stopped(self):
        self.tapes("one", 40)
        self.check(self.bin("judge", "--jsonl", "out.jsonl", "one"), 1)
        whole = (self.folder / "out.jsonl").read_bytes()
        (self.folder / "out.jsonl").write_bytes(whole[:len(whole) // 2])
        done = self.check(self.bin("judge", "--jsonl", "out.jsonl", "one"), 1)
        self.assertEqual(len(done.lines()), 40)
        self.assertEqual((self.folder / "out.jsonl").read_bytes(), whole)
        self.tape("one/t-4.tape", FAIL)
        self.check(self.bin("judge", "--jsonl", "out.jsonl", "one"), 1, out="one/t-4.tape FAIL 0 0 0")
        self.assertEqual((self.folder / "out.jsonl").read_bytes().count(b"\n"), 41)

    def test_a_file_that_is_no_list_of_findings(self):
        for data in (b"Hello\n", b"Hello", b"[1]\n", b'{"tape": 1}\n', b"\n"):
            self.tape("notes", data)
            self.check(self.bin("judge", "--jsonl", "notes", PASS), 2, err="notes: ")
            self.assertEqual((self.folder / "notes").read_bytes(), data)

    def test_junit(self):
        names = {"p.tape": PASS, "f.tape": FAIL, "i.tape": INCONCLUSIVE, "u.tape": UNREADABLE}
        for name, source in names.items():
            self.tape(name, source)
        self.check(self.bin("judge", "--junit", "out.xml", *names, "missing.tape"), 2)
        suite = xml.parse(self.folder / "out.xml").getroot()
        self.assertEqual({key: suite.get(key) for key in ("tests", "failures", "errors", "skipped")},
                         {"tests": "5", "failures": "1", "errors": "3", "skipped": "0"})
        self.assertEqual([[child.tag for child in case] for case in suite], [[], ["failure"], ["error"], ["error"], ["error"]])
        self.assertNotIn("skipped", [child.tag for case in suite for child in case])

    def test_a_report_that_cannot_be_written(self):
        self.tapes("one", 8)
        self.check(self.bin("judge", "--jsonl", "/dev/full", "one"), 2)
        self.check(self.bin("judge", "--jsonl", "no/such/folder", "one"), 2)
        self.check(self.bin("judge", "--junit", "no/such/folder/x", "one"), 2)
        self.tapes("two", 80)
        done = self.bin("judge", "--jsonl", "out.jsonl", "two", preexec_fn=limited(8200))
        self.check(done, 2, err="File too large", out="PASS")
        self.check(self.bin("judge", "--jsonl", "out.jsonl", "two"), 1)
        with open(self.folder / "out.jsonl", "rb") as file:
            tapes = [json.loads(row)["tape"] for row in file]
        self.assertEqual((len(tapes), len(set(tapes))), (80, 80))


class Lost(Trial):
    def test_output_that_cannot_be_written(self):
        with open("/dev/full", "wb") as full:
            self.check(self.bin("judge", PASS, stdout=full), 2, err="standard output")
        self.check(self.bin("judge", PASS, stdout=None, preexec_fn=closed(1)), 2, err="standard output")
        self.assertEqual(self.bin("judge", PASS, "missing.tape", stderr=None, preexec_fn=closed(2)).status, 2)
        self.check(self.bin("judge", PASS, preexec_fn=closed(0), stdin=None), 0)

    def test_a_closed_pipe(self):
        self.tapes("one", 400)
        process = self.start("judge", "one")
        process.stdout.readline()
        process.stdout.close()
        err = process.stderr.read()
        process.stdin.close()
        process.stderr.close()
        self.assertEqual(process.wait(), 2, err)
        self.assertIn(b"standard output", err)

    def test_a_full_disk(self):
        """A file system of 64 kB of our own."""
        script = 'mount -t tmpfs -o size=64k none "$1" && exec "$2" --jsonl "$1/out.jsonl" "$3"'
        self.tapes("one", 800)
        (self.folder / "small").mkdir()
        words = ["unshare", "-rm", "sh", "-c", script, "sh", str(self.folder / "small"), str(ROOT / "bin/judge"), str(self.folder / "one")]
        probe = subprocess.run([*words[:3], "-c", 'mount -t tmpfs none "$1"', *words[5:7]], capture_output=True)
        if probe.returncode:
            self.skipTest("no file system can be mounted here: " + probe.stderr.decode().strip())
        done = subprocess.run(words, capture_output=True, timeout=120)
        self.assertEqual(done.returncode, 2, done)
        self.assertIn(b"No space left", done.stderr)

    def test_a_program_that_is_killed(self):
        """The tape at hand is an error; the others are judged."""
        from lab import judging
        with judging.Judges(1) as judges:
            name = os.fsencode(PASS)
            before = next(judges.in_order([(name, None)]))[0]
            judges.all[0].talk.process.kill()
            judges.all[0].talk.process.wait()
            lost = next(judges.in_order([(name, None)]))[0]
            after = next(judges.in_order([(name, None)]))[0]
        self.assertEqual((before.finding.verdict, after.finding.verdict), ("PASS", "PASS"))
        self.assertIsNone(lost.finding)
        self.assertIn("ended without an answer", lost.error)

    def test_an_answer_that_has_not_its_form(self):
        from lab import findings
        for line in (b"PASS 1 0 0", b"PASS 1 0 0 \n", b"PASS 1 0\n", b"PASS 01 0 0\n", b" PASS 1 0 0\n", b"PASSED 1 0 0\n",
                     b"PASS 1 0 0\n\n", b"PASS 1 0 -0\n", b"PASS 1 0 0 0\n", b"", b"\n", b"PASS 1 0 " + b"9" * 21 + b"\n"):
            self.assertIsNone(findings.finding(line), line)
        self.assertEqual(findings.finding(b"PASS 1 0 0\n"), ("PASS", 1, 0, 0))

    def test_an_answer_that_is_for_another_tape(self):
        """What the program says is used only where it is a whole line, with the very name that was asked."""
        from lab import judging

        class Talk:
            def ask(self, line):
                self.asked = line
                return self.answer
        judge = judging.Judge([])
        judge.talk = Talk()
        have = judging.Judged(b"t.tape")
        for answer in (b"ERROR reading /x\n", b"PASS 1 0 0 /y\n", b"PASS 1 0 0\n", b"PASS 1 0 /x\n", b"PASS 1 0 0 /x /x\n",
                       b"PASS 1 0 0  /x\n", b"/x\n", b"\n", b"FAIL PASS 1 0 0 /x\n"):
            judge.talk.answer = answer
            done = judge.answered(have, b"/x")
            self.assertIsNone(done.finding, answer)
            self.assertIn("no verdict", done.error)
        judge.talk.answer = b"PASS 1 0 0 /x\n"
        self.assertEqual(judge.answered(have, b"/x").finding, ("PASS", 1, 0, 0))
        self.assertEqual(judge.talk.asked, b"JUDGE /x\n")
        judge.copy.close()
        plain = judging.Judge([], plain=True)
        plain.talk = judge.talk
        self.assertEqual(plain.answered(have, b"/x").finding, ("PASS", 1, 0, 0))
        self.assertEqual(plain.talk.asked, b"PLAIN /x\n")
        plain.copy.close()

    def test_the_plain_judge_says_the_same_under_its_own_name(self):
        quick = self.bin("judge", "--jsonl", "a.jsonl", "--samples")
        plain = self.bin("judge", "--plain", "--jsonl", "b.jsonl", "--samples")
        self.assertTrue(quick.out)
        self.assertEqual((quick.status, quick.out), (plain.status, plain.out))
        told = [[json.loads(line) for line in (self.folder / name).read_text().splitlines()] for name in ("a.jsonl", "b.jsonl")]
        self.assertEqual(len(told[0]), len(quick.out.splitlines()))
        for one, other in zip(*told):
            self.assertEqual(other.pop("judge"), one.pop("judge") + " plain")
            self.assertEqual(one, other)
        again = self.bin("judge", "--plain", "--jsonl", "a.jsonl", "--samples")
        self.assertEqual(again.out, quick.out)
        self.assertEqual(len((self.folder / "a.jsonl").read_text().splitlines()), 2 * len(told[0]))

    def test_an_interrupt_leaves_whole_lines(self):
        self.tapes("one", 1500)
        for number in (signal.SIGINT, signal.SIGTERM):
            name = f"out{number}.jsonl"
            process = self.start("judge", "--jsonl", name, "--junit", "out.xml", "one")
            for _ in range(20):
                process.stdout.readline()
            process.send_signal(number)
            out, err = process.communicate(timeout=30)
            self.assertEqual(process.returncode, 2, err)
            self.assertIn(b"interrupted", err)
            self.assertTrue(out == b"" or out.endswith(b"\n"))
            data = (self.folder / name).read_bytes()
            self.assertTrue(data.endswith(b"\n"))
            self.assertFalse((self.folder / "out.xml").exists())
            self.check(self.bin("judge", "--jsonl", name, "--junit", "out.xml", "one"), 1)
            with open(self.folder / name, "rb") as file:
                records = [json.loads(row)["tape"] for row in file]
            self.assertEqual((len(records), len(set(records))), (1500, 1500))
            os.unlink(self.folder / "out.xml")

    def test_killed_and_gone_on_with(self):
        self.tapes("one", 1200)
        chance = random.Random(7)
        for _ in range(25):
            process = self.start("judge", "--jsonl", "out.jsonl", "one", stdout=subprocess.DEVNULL)
            time.sleep(chance.uniform(0.15, 0.5))
            process.kill()
            process.communicate()
        self.check(self.bin("judge", "--jsonl", "out.jsonl", "one"), 1)
        with open(self.folder / "out.jsonl", "rb") as file:
            records = [json.loads(row)["tape"] for row in file]
        self.assertEqual((len(records), len(set(records))), (1200, 1200))


class Many(Trial):
    def test_ten_thousand_tapes(self):
        folder = self.tapes("many", MANY)
        done = self.check(self.bin("judge", "--jsonl", "out.jsonl", "many", seconds=300), 1)
        self.assertEqual(len(done.lines()), MANY)
        verdicts = [line.split()[1] for line in done.lines()]
        self.assertEqual({word: verdicts.count(word) for word in set(verdicts)},
                         {"PASS": MANY // 4, "FAIL": MANY // 4, "INCONCLUSIVE": MANY // 4, "UNREADABLE": MANY // 4})
        self.assertEqual([pathlib.Path(line.split()[0]).name for line in done.lines()], sorted(path.name for path in folder.glob("*.tape")))
