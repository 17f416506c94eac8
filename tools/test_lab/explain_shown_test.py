"""bin/explain: what is hidden and what never reaches a terminal, options and statuses, what is lost, and any bytes."""
import contextlib
import hashlib
import json
import os
import pty
import random
import re
import subprocess
import sys

from taping import ANSWER, COMMAND, DECISION, HOST, RESULTS, SILENCE, START, Explaining, entries, record, sample, tape
from trying import FAIL, INCONCLUSIVE, PASS, ROOT, SAMPLES, UNREADABLE, closed

FIELDS = ["tape", "bytes", "session", "sha256", "judge", "verdict", "place", "code", "zeros", "entries", "due", "stood", "differs",
          "because", "underived", "zeros_of", "notes"]


class Hidden(Explaining):
    """The account number of the sample is 4761739001010010."""

    def with_number(self, *more):
        """The entries of a session whose first list asks for the account number, up to its last record."""
        made = entries("approved-offline")[:9]
        made[6] = (ANSWER, record(("5A", "4761739001010010"), ("5F24", "281231"), *more))
        made[8] = (ANSWER, record(("8C", "5A0895059F3704"), ("8D", "8A02"), ("9F0D", "00" * 5), ("9F0E", "00" * 5), ("9F0F", "00" * 5)))
        return made

    def requested(self, number):
        return COMMAND, bytes.fromhex("80AE400011" + number + "8000000000" + "1A2B3C4D" + "00")

    def test_in_records_and_in_lists(self):
        made = self.with_number(("57", "4761739001010010D2812201123456789F"), ("5F20", b"DOE/JANE".hex()), ("9F1F", "3132333435"))
        made.append(self.requested("4761739001010011"))
        self.told(tape(made), "5A PAN = 476173******0010 (16 digits)", "57 track 2 equivalent data, 17 bytes, not looked at",
                  "80 AE 40 00 11 47 61 73 ** ** ** 00 10 80 00 00 00 00 1A 2B 3C 4D 00",
                  "differs 5A(8) PAN, offset 12: 476173******0010 was due, 476173******0011 stood there.", words=("--last", "0"))
        for words in (("--last", "0"), ("--last", "0", "--json")):
            text = self.check(self.bin("explain", *words, "t.tape"), 1).out.decode()
            for secret in ("9001010010", "90 01 01", "DOE", "444F45", "D281220"):
                self.assertNotIn(secret, text)
        self.told(tape(made), "5A(8) PAN, offset 12: 4761739001010010 was due, 4761739001010011 stood there.", words=("--show-pan",))

    def test_digits_that_differ_where_they_are_hidden(self):
        self.told(tape([*self.with_number(), self.requested("4761739002010010")]),
                  "476173******0010 was due, 476173******0010 (other digits, which are hidden) stood there")

    def test_wherever_it_stands(self):
        """In a command of another shape, in an entry of another kind, in bytes that are no list, in the words of a value, and in JSON."""
        number = bytes.fromhex("4761739001010010")
        for kind, payload in (
            (COMMAND, b"\x80\xAE\x40\x00\x09\x01" + number + b"\x00"), (HOST, number), (RESULTS, b"\x01" + number),
            (DECISION, number + b"\0"), (ANSWER, b"\x70\x0A\x5A\x08" + number + b"\x90\x00"), (START, number),
            (ANSWER, b"\xFF\x5A\x08" + number),
            (COMMAND, b"4761739001010010"), (SILENCE, bytes.fromhex("04761739001010010F")), (START, bytes(1) + number + bytes(68)),
            (COMMAND, b"\x00\xA4\x04\x00\x08" + number + b"\x00"),
        ):
            self.tape("t.tape", tape([*self.with_number(), (kind, payload)]))
            for words in ((), ("--json",), ("--last", "0")):
                text = self.check(self.bin("explain", *words, "t.tape"), 1, out="FAIL").out.decode().replace(" ", "")
                for secret in ("9001", "390010", "39303031", "7390"):
                    self.assertNotIn(secret, re.sub("[0-9a-f]{64}", "", text), (kind, words))

    def test_short_numbers(self):
        from lab.explaining.hiding import Hider
        for digits, shown in (("4761739001010010", "476173******0010"), ("4761739001010", "476173***1010"),
                              ("476173900101", "********0101"), ("47617390", "****7390"), ("476173", "******"), ("4", "*")):
            value = bytes.fromhex(digits + "F" * (len(digits) % 2))
            self.assertEqual(Hider([], False).number(value).split()[0], shown)
            self.assertEqual(Hider([], True).number(value).split()[0], digits)

    def test_a_short_number_in_a_command(self):
        """Seven digits, which are too few to be looked for elsewhere, at their place in the first list: 12 34 56 7F, filled up with FF."""
        made = self.with_number()
        made[6] = (ANSWER, record(("5A", "1234567F"), ("5F24", "281231")))
        made += [self.requested("1234567FFFFFFFFF"), (SILENCE, b"")]
        self.tape("t.tape", tape(made))
        shown = json.loads(self.check(self.bin("explain", "--json", "t.tape"), 1).out)["entries"]
        [told] = [one for one in shown if one["kind"] == "COMMAND"]
        self.assertEqual(told["bytes"], "80AE400011" + "*******FFFFFFFFF" + "8000000000" + "1A2B3C4D" + "00")

    def test_zeros_are_no_number(self):
        """9F38 asks for 5A before it is read: zeros, which are shown as such."""
        made = entries("approved-offline")
        made[2] = (ANSWER, bytes.fromhex("6F108407A0000000031010A5059F38025A089000"))
        made[3] = (COMMAND, bytes.fromhex("80A800000A8308000000000000000100"))
        self.told(tape(made), "due COMMAND: GET PROCESSING OPTIONS 80 A8 00 00 0A 83 08 00 00 00 00 00 00 00 00 00 stood there",
                  "5A(8) PAN, offset 14: 0000000000000000 was due, 000000******0001 stood there")


class Terminal(Explaining):
    def test_a_label_with_escape_characters(self):
        made, label = entries("approved-offline"), b"\x1b[31mRED\x07\r\n\x9b0m\\"
        inner = b"\x50" + bytes((len(label),)) + label
        fci = bytes.fromhex("8407A0000000031010A5") + bytes((len(inner),)) + inner
        made[2] = (ANSWER, b"\x6F" + bytes((len(fci),)) + fci + b"\x90\x00")
        self.tape("t.tape", tape(made[:3]))
        for words in ((), ("--json",)):
            done = self.check(self.bin("explain", *words, "t.tape"), 1, out="INCONCLUSIVE")
            self.assertFalse([one for one in done.out if one != 0x0A and not 0x20 <= one < 0x7F], done.out)
        self.check(self.bin("explain", "t.tape"), 1, out="50 application label = \\x1B[31mRED\\x07\\x0D\\x0A\\x9B0m\\x5C, not looked at\n")

    def test_names_of_every_kind(self):
        for name in (b"\x1b[31mred.tape", b"line\nfeed.tape", b"\xff\xfe.tape", "\u202eright.tape".encode(), b"back\\slash.tape",
                     b"\xc2\x9bcsi.tape"):
            self.tape(name, FAIL)
            done = self.check(self.bin("explain", "--", name, b"missing" + name), 2, out="FAIL at entry 0", err="cannot be opened")
            for said in (done.out, done.err):
                self.assertFalse([one for one in said.decode() if not one.isprintable() and one != "\n"], said)
            self.assertEqual(done.err.count(b"\n"), 1)
            made = json.loads(self.bin("explain", "--json", "--", name).out)
            self.assertEqual(bytes.fromhex(made["tape_hex"]) if "tape_hex" in made else made["tape"].encode(), name)

    def on_a_terminal(self, **more):
        """What is said where standard output is a terminal."""
        ours, theirs = pty.openpty()
        environment = {key: value for key, value in os.environ.items() if key not in ("NO_COLOR", "TERM")}
        process = self.start("explain", FAIL, stdout=theirs, env={**environment, **more})
        os.close(theirs)
        said = b""
        with contextlib.suppress(OSError):
            while piece := os.read(ours, 65536):
                said += piece
        os.close(ours)
        process.communicate()
        self.assertEqual(process.returncode, 1)
        return said

    def test_colours(self):
        self.assertIn(b"\x1b[31m", self.on_a_terminal(TERM="xterm"))
        self.assertNotIn(b"\x1b", self.on_a_terminal(TERM="xterm", NO_COLOR="1"))
        self.assertNotIn(b"\x1b", self.on_a_terminal(TERM="dumb"))
        self.assertNotIn(b"\x1b", self.bin("explain", FAIL).out)


class Asked(Explaining):
    def test_statuses(self):
        for source, status in ((PASS, 0), (FAIL, 1), (INCONCLUSIVE, 1), (UNREADABLE, 1)):
            self.check(self.bin("explain", source), status)
        self.check(self.bin("explain", PASS, "missing.tape", FAIL), 2, out=("PASS after 12", "FAIL at entry 0"),
                   err="missing.tape: cannot be opened")
        (self.folder / "none").mkdir()
        for words in ((), ("--json",), ("none",), ("--",), ("--last",), ("--last", "x", PASS), ("--last", "-1", PASS), ("--what", PASS),
                      ("--json=1", PASS)):
            self.check(self.bin("explain", *words), 2, no_out="PASS")
        self.check(self.bin("explain", "-", given=os.fsencode(PASS) + b"\n"), 0, out="PASS after 12")

    def test_a_folder(self):
        self.tapes("some", 8)
        done = self.check(self.bin("explain", "some"), 1)
        self.assertEqual(len([line for line in done.lines() if line.startswith("some/")]), 8)
        self.assertEqual(done.out.count(b"\n\n"), 7)

    def test_last(self):
        for last, before, shown in (("0", 0, 12), ("1", 11, 1), ("2", 10, 2), ("5", 7, 5), ("12", 0, 12), ("4294967295", 0, 12)):
            said = self.said(sample("approved-offline"), "--last", last, status=0)
            self.assertEqual(len([line for line in said if re.match(r" {2,4}\d+ [A-Z]", line)]), shown)
            self.assertEqual([line for line in said if " before (" in line],
                             [f"      ..       {before} entries before (--last 0 shows them)"] if before else [])
        self.assertEqual(self.said(sample("approved-offline"), status=0), self.said(sample("approved-offline"), "--last", "2", status=0))

    def test_json(self):
        names = ["floor-limit-not-seen", "silent-card", "damaged", "asked-for-more"]
        done = self.check(self.bin("explain", "--json", *(SAMPLES / f"{name}.tape" for name in names)), 1)
        failed, silent, damaged, passed = found = [json.loads(line) for line in done.out.splitlines()]
        for name, one in zip(names, found):
            self.assertEqual(list(one), FIELDS)
            self.assertEqual(one["sha256"], hashlib.sha256(sample(name)).hexdigest())
        self.assertEqual((failed["verdict"], failed["place"], failed["code"], failed["zeros"]), ("FAIL", 9, 0, 0))
        self.assertEqual([one["index"] for one in failed["entries"]], [7, 8])
        self.assertEqual((failed["due"]["kind"], failed["due"]["words"]), ("COMMAND", ["GENERATE AC, ARQC"]))
        self.assertEqual(failed["stood"]["bytes"][:6], "80AE40")
        self.assertEqual([(one["part"], one["at"]) for one in failed["differs"]], [("P1", [2]), ("TVR byte 4 b8", [22])])
        self.assertEqual([one["about"] for one in failed["because"]], ["request", "TVR byte 4 b8"])
        self.assertEqual((silent["verdict"], silent["due"], silent["notes"][0]["label"]), ("INCONCLUSIVE", None, "waiting"))
        self.assertEqual((damaged["verdict"], damaged["place"], damaged["code"], damaged["session"]), ("UNREADABLE", 4, 3, None))
        self.assertEqual([(one["list"], one["tag"], one["length"]) for one in passed["zeros_of"]],
                         [("9F38", "9F40", 5), ("9F38", "82", 2), ("8C", "9F35", 1), ("8D", "DF01", 0)])

    def test_the_fields_of_json_are_in_help(self):
        said = self.check(self.bin("explain", "--help"), 0).out.decode()
        for field in FIELDS:
            self.assertIn(field, said)
        self.assertIn("display", said)


class Talk:
    """Stands for a `lab_tapes`: FAIL 1 to JUDGE, and `answers` to DUE, with the tape's name for @."""

    def ask(self, line):
        word, _, place = line[:-1].partition(b" ")
        self.lines = iter([b"FAIL 1 0 0 " + place + b"\n"] if word == b"JUDGE" else [one.replace(b"@", place) for one in self.answers])
        return next(self.lines)

    def more(self):
        return next(self.lines)

    def close(self):
        pass


class Lost(Explaining):
    def test_output_that_cannot_be_written(self):
        with open("/dev/full", "wb") as full:
            self.check(self.bin("explain", PASS, stdout=full), 2, err="standard output")
        self.check(self.bin("explain", PASS, stdout=None, preexec_fn=closed(1)), 2, err="standard output")
        self.assertEqual(self.bin("explain", PASS, "missing.tape", stderr=None, preexec_fn=closed(2)).status, 2)

    def test_a_closed_pipe(self):
        self.tapes("one", 400)
        process = self.start("explain", "one")
        process.stdout.readline()
        process.stdout.close()
        err = process.stderr.read()
        process.stdin.close()
        process.stderr.close()
        self.assertEqual(process.wait(), 2, err)
        self.assertIn(b"standard output", err)

    def test_bad_files(self):
        os.mkfifo(self.folder / "pipe.tape")
        os.symlink("nowhere", self.folder / "link.tape")
        done = self.check(self.bin("explain", "pipe.tape", "link.tape", "/dev/zero", FAIL, seconds=30), 2, out="FAIL at entry 0")
        for name in ("pipe.tape", "link.tape", "/dev/zero"):
            self.assertIn(f"{name}: ", done.err.decode())

    def test_lines_that_have_not_their_form(self):
        from lab import findings
        for line in (b"DUE 0 START 00\n", b"DUE 0 RESULTS AB\n", b"DUE 0 RESULTS 01\n", b"DUE 0 RESULTS\n", b"DUE 0 COMMAND 0\n",
                     b"DUE 0 COMMAND\n", b"DUE 0 SILENCE\n", b"DUE 0 OTHER 1\n", b"DUE 1 START\n", b"DUE 0 start\n", b"DUE 0 START",
                     b"DUE 0 DECISION 0g\n", b"DUE 00 START\n", b"DUE 0  START\n", b"DUE 0 START \n", b"DUE 0 NOTHING 0\n"):
            self.assertIsNone(findings.due(line, 0), line)
        self.assertEqual(findings.due(b"DUE 0 START\n", 0), {"kind": "START"})
        self.assertEqual(findings.due(b"DUE 3 RESULTS 0\n", 3), {"kind": "RESULTS", "count": 0})
        self.assertEqual(findings.due(b"DUE 3 COMMAND 00B2010C00\n", 3), {"kind": "COMMAND", "bytes": "00B2010C00"})

    def test_dues_that_are_not_told_as_the_verdict_is(self):
        """Nothing is explained where the program's lines do not come to one verdict."""
        from lab import judging
        judge = judging.Judge([], with_due=True)
        self.addCleanup(judge.close)
        judge.talk = Talk()
        good = [b"DUE 0 START\n", b"DUE 1 COMMAND 00\n", b"FAIL 1 0 0 @\n"]
        for answers in (good[1:], good[:1] + good[2:], [*good[:2], b"FAIL 2 0 0 @\n"], [*good[:2], b"DUE 2 ANSWER\n", good[2]],
                        [*good[:2], b"PASS 1 0 0 @\n"], [good[0], b"DUE 1 COMMAND 0\n", good[2]], [*good[:2], b"ERROR changed @\n"]):
            judge.talk.answers = answers
            done = judge.judge(os.fsencode(PASS), None, None)
            self.assertIsNone(done.finding, answers)
            self.assertIn("no verdict", done.error)
        judge.talk.answers = good
        self.assertEqual(judge.judge(os.fsencode(PASS), None, None).finding, ("FAIL", 1, 0, 0))

    def test_a_display_that_fails(self):
        """A fault of the display loses neither the verdict nor the other tapes."""
        script = ("import sys; sys.path.insert(0, sys.argv.pop(1)); from lab.commands import explain as it\n"
                  "def fails(*all): raise ValueError('of the display')\n"
                  "it.layout.text_lines = fails; sys.argv[0] = 'explain'; it.start()")
        done = subprocess.run([sys.executable, "-B", "-c", script, str(ROOT), str(FAIL), str(PASS)], capture_output=True)
        self.assertEqual(done.returncode, 2)
        self.assertIn(b"FAIL 0 0 0, and could not be explained: ValueError: of the display", done.stderr)
        self.assertIn(b"PASS 12 0 0, and could not be explained", done.stderr)


class AnyBytes(Explaining):
    def test_random_bytes(self):
        """Random files, entries of random bytes, and samples with an entry of random bytes: each is explained, and none is a PASS."""
        chance, names = random.Random(7), []
        for k in range(300):
            made = entries(chance.choice(("online-pin", "asked-for-more", "transit")))[:chance.randrange(1, 17)]
            at = chance.randrange(len(made))
            if k % 3 == 0:
                data = chance.randbytes(chance.choice((0, 1, 511, 512, 513, 1024, 5120)))
            elif k % 3 == 1:
                data = tape([*made[:-1], (chance.randrange(1, 8), chance.randbytes(chance.choice((0, 1, 3, 5, 9, 74, 77, 496))))])
            else:
                data = tape([(kind, chance.randbytes(len(payload)) if k == at else payload) for k, (kind, payload) in enumerate(made)])
            names.append(f"r-{k}.tape")
            self.tape(names[-1], data)
        for words in ((), ("--json", "--last", "0")):
            done = self.check(self.bin("explain", *words, *names), 1)
            self.assertEqual(done.err, b"")
            self.assertEqual(done.out.count(b"sha256"), len(names))
            self.assertNotIn(b"PASS", done.out)
            self.assertNotIn(b"could not be named", done.out)
