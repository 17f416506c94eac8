"""bin/report: the tapes that it opens are explained by bin/explain's own lines, from the bytes that were judged or not at all."""
import hashlib
import json
import os
import resource
import time
from unittest import mock

from report_test import MANY, ReportTrial, finding
from taping import ANSWER, COMMAND, changed, entries, record, sample, tape
from trying import FAIL, INCONCLUSIVE, PASS, UNREADABLE


class Explaining(ReportTrial):
    def night(self, *words, status=1, **tapes):
        """Tapes by name, judged into a list and reported."""
        for name, data in tapes.items():
            self.tape(f"t/{name}.tape", data)
        self.bin("judge", "--jsonl", "night.jsonl", "t")
        return self.again(*words, status=status)

    def again(self, *words, status=1, **more):
        self.done = self.check(self.bin("report", *words, "night.jsonl", "night.html"), status, **more)
        return self.page().text

    def body(self, name):
        """What bin/explain says of a tape between the line of its sha256 and what such a verdict means."""
        lines = self.bin("explain", name).lines()
        return "\n".join(lines[2:next(k for k, line in enumerate(lines) if line.startswith("  meaning"))])


class OwnLines(Explaining):
    def test_of_each_verdict(self):
        text = self.night(fail=sample("floor-limit-not-seen"), open=INCONCLUSIVE, bad=UNREADABLE, good=PASS)
        for name, words in (("fail", "differs      P1, offset 2: ARQC was due, TC stood there."), ("open", "last asked"), ("bad", "right")):
            body = self.body(f"t/{name}.tape")
            self.assertIn(words, body)
            self.assertIn(body, text)
        self.assertIn("3 tapes, each from the bytes with the sha256 of its line", text)
        self.assertEqual(self.done.err, b"")

    def test_of_every_sample(self):
        self.bin("judge", "--jsonl", "night.jsonl", "--samples")
        text = self.again()
        for line in (self.folder / "night.jsonl").read_text().splitlines():
            told = json.loads(line)
            if told["verdict"] != "PASS":
                self.assertIn(self.body(told["tape"]), text, told["tape"])

    def test_what_a_card_calls_itself_is_no_html(self):
        label = b"<script>x</script>".hex()
        fci = bytes.fromhex("6F" + f"{2 + 7 + 2 + 2 + 18:02X}" + "8407A0000000031010" + "A514" + "5012" + label) + b"\x90\x00"
        text = self.night(label=changed("silent-card", 2, payload=fci))
        self.assertIn("<script>x</script>", text)

    def test_names_of_every_kind(self):
        for name in (b"<script>alert(1)</script", b"not utf-8 \xff\xfe", b"line\nfeed", "日本".encode(), b"-dash"):
            self.tape(b"t/" + name.replace(b"/", b"_") + b".tape", FAIL)
        self.assertIn("5 tapes, each from the bytes", self.night())

    def test_the_same_list_and_tapes_give_the_same_report(self):
        self.night(fail=FAIL, open=INCONCLUSIVE, bad=UNREADABLE)
        first = (self.folder / "night.html").read_bytes()
        self.again()
        self.assertEqual((self.folder / "night.html").read_bytes(), first)


class NotOfThoseBytes(Explaining):
    """A tape is explained from the bytes that were judged, or it is said why not; its line counts as before."""

    def test_a_tape_that_has_changed(self):
        good = sample("floor-limit-not-seen")
        for other in (PASS.read_bytes(), good[:-512], good[:-1] + b"\0", b""):
            self.night(fail=good)
            self.tape("t/fail.tape", other)
            text = self.again(status=2, err="1 changed since judged", out="FAIL 1 ")
            self.assertIn("1 tape of those listed below: changed since judged.", text)
            self.assertNotIn("cannot be here", text)
            self.assertIn("GENERATE AC (ARQC) was due", text)

    def test_a_tape_that_is_gone(self):
        self.night(fail=sample("floor-limit-not-seen"))
        os.unlink(self.folder / "t/fail.tape")
        text = self.again(err="1 not explained, with no file where the list names one", out="FAIL 1 ")
        self.assertIn("no file where the list names one", text)
        self.assertIn("the file cannot be opened: No such file", text)
        self.assertIn("80 AE 80 00 1D", text)

    def test_a_list_that_says_something_else_of_the_same_bytes(self):
        self.night(fail=sample("floor-limit-not-seen"))
        told = json.loads((self.folder / "night.jsonl").read_text())
        for change in ({"place": 7}, {"zeros": 1}):
            self.list({**told, **change})
            text = self.again(status=2, err="1 judged otherwise now")
            self.assertIn("judged otherwise here, with the very same bytes", text)
            self.assertNotIn("cannot be here", text)

    def test_what_is_no_file(self):
        self.night(fail=FAIL)
        os.unlink(self.folder / "t/fail.tape")
        os.mkfifo(self.folder / "t/fail.tape")
        self.assertIn("is a named pipe", self.again(status=2, err="1 that could not be explained"))

    def test_a_file_that_is_too_long_to_be_read_here(self):
        data = PASS.read_bytes() + bytes(2 << 20)
        self.list(finding("t/long.tape", "UNREADABLE", code=1, place=0, bytes=len(data), sha256=hashlib.sha256(data).hexdigest()))
        self.tape("t/long.tape", data)
        self.assertIn("is left to bin/explain", self.again(status=2, err="1 that could not be explained"))

    def test_from_the_list_alone(self):
        text = self.night("--list-only", fail=sample("floor-limit-not-seen"))
        self.assertNotIn("cannot be here", text)
        self.assertIn("no tape was opened (--list-only)", text)
        first = (self.folder / "night.html").read_bytes()
        self.tape("t/fail.tape", PASS)
        self.again("--list-only", no_err="changed")
        self.assertEqual((self.folder / "night.html").read_bytes(), first)

    def test_programs_that_cannot_be_used(self):
        """The report is written, and says that nothing could be explained."""
        from lab import programs, report_explained, report_tapes, verdicts
        from lab.words import Undone
        self.night(fail=FAIL)
        os.chdir(self.folder)
        self.addCleanup(os.chdir, "/")
        night = report_tapes.gathered(verdicts.read(b"night.jsonl").lines)
        with mock.patch.object(programs, "ready", side_effect=Undone("no kit")):
            made = report_explained.explained(report_tapes.opened(night))
        self.assertEqual((made.undone(), made.of(report_explained.UNABLE)), ("1 that could not be explained", [(b"t/fail.tape", "no kit")]))


class HowMany(Explaining):
    def test_each_cause_has_its_first_explained(self):
        """Of many tapes with one cause some are explained, and how many are not is said; a rare cause is not crowded out."""
        fail = sample("floor-limit-not-seen")
        sources = {f"a{k:04d}": fail for k in range(800)}
        text = self.night(**sources, z1=FAIL, z2=UNREADABLE)
        self.assertIn(self.body("t/z1.tape"), text)
        self.assertIn(self.body("t/z2.tape"), text)
        explained = text.count("COMMAND  cannot be here")
        self.assertLess(explained, 501)
        self.assertGreater(explained, 200)
        self.assertIn(f"{800 - explained} of those listed here are told from the list alone, for want of room", text)

    def test_the_longest_names_and_explanations(self):
        """Under 2 MB where every name is long and full of marks, and each tape has much to be said of: a record of many objects."""
        made = entries("approved-offline")[:7]
        made[6] = (ANSWER, record(*[(f"C{k % 10}", "00") for k in range(70)]))
        self.tape("t/fail.tape", tape([*made, (COMMAND, b"\0")]))
        self.tape("t/open.tape", INCONCLUSIVE)
        self.tape("t/bad.tape", UNREADABLE)
        self.check(self.bin("judge", "--jsonl", "some.jsonl", "t"), 1)
        with open(self.folder / "night.jsonl", "w") as file:
            for k, told in enumerate([json.loads(line) for line in (self.folder / "some.jsonl").read_text().splitlines()] * 1000):
                name = f"d/{k:06d}{'<' * 60}/{'&' * 200}-{k}.tape"
                os.makedirs(self.folder / os.path.dirname(name))
                os.link(self.folder / told["tape"], self.folder / name)
                file.write(json.dumps({**told, "tape": name, "number": k}) + "\n")
        text, size = self.again(), (self.folder / "night.html").stat().st_size
        explained = text.count("cannot be here")
        print(f"{size:,} bytes, {explained} failures explained", flush=True)
        self.assertGreater(explained, 20)
        self.assertLess(size, 2_000_000)

    def test_a_night_of_200000(self):
        """One tape in twenty is not PASS, and all that are listed are there: under 2 MB, and 10 s of the processor's time."""
        self.tape("t/fail.tape", sample("floor-limit-not-seen"))
        self.tape("t/open.tape", INCONCLUSIVE)
        self.tape("t/bad.tape", UNREADABLE)
        self.check(self.bin("judge", "--jsonl", "some.jsonl", "t"), 1)
        lines = {told["verdict"]: told for told in map(json.loads, (self.folder / "some.jsonl").read_text().splitlines())}
        verdicts, names = ["PASS"] * 95 + ["FAIL"] * 2 + ["INCONCLUSIVE"] * 2 + ["UNREADABLE"], {"FAIL": "fail", "INCONCLUSIVE": "open"}
        with open(self.folder / "night.jsonl", "w") as file:
            for k in range(MANY):
                name, verdict = f"night/terminal-{k % 12}/t-{k:06d}.tape", verdicts[k * 7919 % 100]
                if verdict != "PASS":
                    os.makedirs(self.folder / os.path.dirname(name), exist_ok=True)
                    os.link(self.folder / f"t/{names.get(verdict, 'bad')}.tape", self.folder / name)
                told = finding(name, number=k) if verdict == "PASS" else {**lines[verdict], "tape": name, "number": k}
                file.write(json.dumps(told, separators=(",", ":")) + "\n")
        before, began = resource.getrusage(resource.RUSAGE_CHILDREN), time.monotonic()
        text, after = self.again(out=f"TOTAL {MANY}: "), resource.getrusage(resource.RUSAGE_CHILDREN)
        took, size = after.ru_utime + after.ru_stime - before.ru_utime - before.ru_stime, (self.folder / "night.html").stat().st_size
        print(f"{size:,} bytes, {took:.1f} s of the processor's time, {time.monotonic() - began:.1f} s by the clock", flush=True)
        self.assertIn("cannot be here", text)
        self.assertLess(size, 2_000_000)
        self.assertLess(took, 10)
