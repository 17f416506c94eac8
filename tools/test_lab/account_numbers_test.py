"""No account number stands whole in a report, in a list of findings, or in what is recovered for handing on."""
import json
import os
from unittest import mock

from report_explained_test import Explaining
from taping import ANSWER, COMMAND, DECISION, HOST, START, entries, record, tape
from trying import PASS, SAMPLES

# The account number that these tapes tell, and forms of it of which none may be seen.
NUMBER = "4761739001010010"
SECRETS = (NUMBER, NUMBER[6:12], "47 61 73 90", "DOE/JANE", b"DOE/JANE".hex().upper())


class AccountNumbers(Explaining):
    def with_number(self, *last):
        """A session whose first list asks for the account number, up to its last record and what is put behind it."""
        made = entries("approved-offline")[:9]
        made[6] = (ANSWER, record(("5A", NUMBER), ("5F24", "281231"), ("5F20", b"DOE/JANE".hex())))
        made[8] = (ANSWER, record(("8C", "5A0895059F3704"), ("8D", "8A02"), ("9F0D", "00" * 5), ("9F0E", "00" * 5), ("9F0F", "00" * 5)))
        return tape([*made, *last])

    def tapes_with_it(self):
        """It stands where it was asked for, with a last digit that is wrong; and where a terminal that fails may have put it."""
        number = bytes.fromhex(NUMBER)
        command = bytes.fromhex("80AE400011" + NUMBER[:-1] + "1" + "8000000000" + "1A2B3C4D" + "00")
        stood = [(COMMAND, command), (HOST, number), (DECISION, number + b"\0"), (START, number), (COMMAND, number + b"\0" * 20),
                 (ANSWER, record(("5A", NUMBER), ("5F20", b"DOE/JANE".hex()))), (COMMAND, NUMBER.encode())]
        return {**{f"t{k}": self.with_number(one) for k, one in enumerate(stood)}, "open": self.with_number()}

    def shows_none(self, text, why):
        for secret in SECRETS:
            self.assertNotIn(secret, text, why)
            self.assertNotIn(secret, text.replace(" ", "").replace("\n", ""), why)

    def test_in_a_report(self):
        tapes = self.tapes_with_it()
        self.shows_none(self.night(**tapes), "explained")
        self.assertIn("476173******0010", self.page().text)
        self.shows_none(self.again("--list-only"), "from the list")
        for name in tapes:
            os.unlink(self.folder / f"t/{name}.tape")
        text = self.again()
        self.shows_none(text, "gone")
        self.assertIn("47 61 73 ** ** ** 00 1", text)

    def test_in_a_list(self):
        self.night(**self.tapes_with_it())
        data = (self.folder / "night.jsonl").read_text()
        self.shows_none(data, "the list")
        for told in map(json.loads, data.splitlines()):
            self.assertEqual(told["pan"], "masked", told["tape"])
            self.assertIn("*", told.get("stood", told["due"])["bytes"], told["tape"])

    def test_a_list_that_has_them_whole(self):
        """It is asked for, and says so; a report of it shows no bytes that were not looked at, and neither does one of an older list."""
        for name, data in self.tapes_with_it().items():
            self.tape(f"t/{name}.tape", data)
        self.check(self.bin("judge", "--jsonl", "night.jsonl", "--show-pan", "t"), 1)
        told = [json.loads(line) for line in (self.folder / "night.jsonl").read_text().splitlines()]
        self.assertTrue(all(one["pan"] == "whole" and "*" not in json.dumps(one) for one in told))
        self.assertTrue(any(NUMBER in one["due"].get("bytes", "") for one in told))
        for lines in (told, [{key: value for key, value in one.items() if key != "pan"} for one in told]):
            self.list(*lines)
            self.shows_none(self.again(), "explained")
            text = self.again("--list-only")
            self.shows_none(text, "from the list")
            self.assertIn("bytes, not shown: the list may have account numbers whole", text)
        self.check(self.bin("judge", "--show-pan", PASS), 2, err="--show-pan is for --jsonl")

    def test_bytes_that_the_display_cannot_look_at(self):
        from lab import judging
        from lab.explaining import explained
        judged = judging.Judged(b"x", due={"kind": "COMMAND", "bytes": NUMBER}, stood={"kind": "HOST", "bytes": NUMBER})
        with mock.patch.object(explained, "failed", side_effect=ValueError):
            made = explained.masked(mock.Mock(), judged)
        self.assertEqual((made.due["bytes"], made.stood["bytes"], made.masked), ("*" * 16, "*" * 16, True))

    def test_in_the_words_of_a_fault(self):
        from lab import report_explained, report_tapes, verdicts
        self.night(one=self.with_number((HOST, bytes.fromhex(NUMBER))))
        os.chdir(self.folder)
        self.addCleanup(os.chdir, "/")
        night = report_tapes.gathered(verdicts.read(b"night.jsonl").lines)
        with mock.patch.object(report_explained, "explain", side_effect=ValueError(NUMBER)):
            made = report_explained.explained(report_tapes.opened(night))
        self.assertEqual(made.of(report_explained.UNABLE), [(b"t/one.tape", "could not be explained: ValueError")])

    def test_entries_that_differ_in_hidden_digits_alone(self):
        command = bytes.fromhex("80AE400011" + "4761739002010010" + "8000000000" + "1A2B3C4D" + "00")
        text = self.night("--list-only", one=self.with_number((COMMAND, command)))
        self.assertIn("in digits that are hidden, and nowhere else", text)

    def test_in_what_is_recovered(self):
        self.tape("t.tape", self.with_number() + b"tail")
        whole = self.check(self.bin("recover", "t.tape"), 1).out.decode()
        hidden = self.check(self.bin("recover", "--hide-pan", "t.tape"), 1).out.decode()
        self.assertIn(NUMBER, whole)
        self.shows_none(hidden, "recovered")
        for one, other in zip(whole.splitlines(), hidden.splitlines()):
            self.assertEqual(len(one), len(other))
            self.assertTrue(all(b in (a, "*") for a, b in zip(one, other)))
        self.assertEqual(self.bin("recover", "--hide-pan", PASS).status, 0)
        book = SAMPLES / "campaign.book"
        self.assertEqual(self.bin("recover", "--hide-pan", book).out, self.bin("recover", book).out)
