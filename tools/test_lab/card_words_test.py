"""bin/card: where there is no session, and the words of others."""
import os
import signal
import subprocess
import sys
import time

from at_reader import AtAReader, Script
from trying import ROOT
from virtual_reader import MUTE, OverT0, Scripted


class NoSession(AtAReader):
    def nothing(self, done, status, *words):
        self.check(done, status, err=words, no_out="tape")
        self.assertFalse([path.name for path in self.folder.iterdir() if "tape" in path.name])

    def test_no_card_and_two_readers(self):
        script = Script("online-approved")
        self.nothing(self.card(script, "a.tape", "--wait", "1"), 2, "waiting for a card", "no card within 1 s")
        self.nothing(self.card(script, "a.tape", "--reader", "Virtual"), 2, "2 readers with 'Virtual'", "Virtual PCD 00 01")
        self.nothing(self.card(script, "a.tape", "--reader", "ACS"), 2, "no reader with 'ACS'", "Virtual PCD 00 00")

    def test_no_service_and_no_library(self):
        script = Script("online-approved")
        other = dict(os.environ, PCSCLITE_CSOCK_NAME=str(self.folder / "none"))
        self.nothing(self.card(script, "a.tape", env=other), 2, "no PC/SC service here")
        code = ("import sys; sys.path.insert(0, %r); from lab import pcsc; pcsc.LIBRARY = 'libno-such.so.1'\n"
                "from lab.commands import card; card.start()" % str(ROOT))
        done = subprocess.run([sys.executable, "-B", "-c", code, *self.words(script, "a.tape")], cwd=self.folder, capture_output=True)
        self.assertEqual((done.returncode, done.stdout), (2, b""))
        self.assertIn(b"no PC/SC library here (libno-such.so.1", done.stderr)

    def test_an_answer_to_reset_that_is_refused(self):
        script = Script("online-approved")
        for atr, rule in (("3B8001", "TB1-ABSENT@2"), ("3B", "CUT@1"), ("FFFF", "TS@0"), ("3F650000", "CUT@4")):
            with self.subTest(atr=atr), self.inserted("T=0", Scripted(script.answers), bytes.fromhex(atr)) as card:
                self.nothing(self.card(script, "a.tape"), 3, "no session: the answer to reset is refused: REFUSED", rule)
                self.assertEqual(card.commands, [])

    def test_the_inverse_convention(self):
        """The reader hands over data bytes: '3F' first. To read_atr go line bytes."""
        script = Script("online-approved")
        with self.inserted("T=0", OverT0(Scripted(script.answers)), bytes.fromhex("3F610000AA")):
            self.check(self.card(script, "a.tape"), 0, out="PASS 15 0 0")
        story, _ = self.told("a.tape")
        self.assertEqual(story["atr"], "3F610000AA")
        self.assertIn("ACCEPTED inverse T=0", story["read_atr"])
        self.assertIn(" data=AA", story["read_atr"])

    def test_mute_and_no_reader(self):
        from lab import pcsc, readers
        from lab.words import Undone

        class Looked:
            def __init__(self, state):
                self.state = state

            def look(self, reader, known, milliseconds):
                return self.state, b""
        for state in (pcsc.PRESENT | pcsc.MUTE, pcsc.PRESENT):
            with self.assertRaisesRegex(Undone, "the card is mute"):
                readers.wait_for_card(Looked(state), b"R", 0)
        with self.assertRaisesRegex(Undone, "no card within 0 s"):
            readers.wait_for_card(Looked(0), b"R", 0)
        for names, wanted, word in (([], b"R", "no reader: "), ([b"R 1", b"R 2"], b"R", "2 readers"), ([b"R 1"], b"S", "no reader with")):
            with self.assertRaisesRegex(Undone, word):
                readers.chosen(names, wanted)
        self.assertEqual(readers.chosen([b"R", b"R 2"], b"R"), b"R")

    def test_bad_words(self):
        script = Script("online-approved")
        for words in (("--host", "01303"), ("--host", "x"), ("--results", "0x"), ("--wait", "-1"), ("--within", "x"), ("--no-such",)):
            self.nothing(self.card(script, "a.tape", *words), 2, words[0])
        self.nothing(self.card(script, "a.tape", "--start", "none"), 2, "none: No such file")
        (self.folder / "bad.txt").write_text("START 00\n")
        self.nothing(self.card(script, "a.tape", "--start", "bad.txt"), 2, "the kernel does not take this START: REFUSED 3")
        self.nothing(self.bin("card", "--reader", "x", "--start", "bad.txt", "a.tape"), 2, "a tape and a session number")
        self.nothing(self.bin("card", "--start", "bad.txt", "a.tape", "7"), 2, "--reader is missing")


class Words(AtAReader):
    def test_a_word_that_was_not_given(self):
        """Nothing is made up: the session stops, its tape is INCONCLUSIVE, and the status says that something was not done."""
        for name, said in (("online-approved", "asks for HOST, and --host was not given"),
                           ("offline-pin", "asks for RESULTS 2, and --results")):
            script, tape = Script(name), f"{name}.tape"
            script.words = []
            with self.inserted("T=1", Scripted(script.answers)):
                self.check(self.card(script, tape), 2, err=("the session stopped: ", said), out=f"{tape} INCONCLUSIVE", no_out="PASS")
            story, data = self.told(tape)
            self.assertEqual((story["last"], story["silence"], data), (None, None, script.tape[:len(data)]))
            self.assertIn(said, story["stopped"])

    def test_a_word_that_is_turned_away(self):
        script = Script("online-approved")
        script.words = ["--host", "0130"]
        with self.inserted("T=1", Scripted(script.answers)):
            self.check(self.card(script, "a.tape"), 2, err="the kernel turned the word away: REFUSED 6", out="a.tape INCONCLUSIVE")

    def test_a_tape_that_is_there(self):
        script = Script("online-approved")
        for name in ("a.tape", "a.tape.json"):
            (self.folder / name).write_bytes(b"somebody's")
            self.check(self.card(script, "a.tape"), 2, err=f"{name}: is there already", no_out="PASS")
            self.assertEqual((self.folder / name).read_bytes(), b"somebody's")
            (self.folder / name).unlink()
        (self.folder / "a.tape").write_bytes(b"somebody's" * 1000)
        with self.inserted("T=1", Scripted(script.answers)):
            self.check(self.card(script, "a.tape", "--over"), 0, out="a.tape PASS 15 0 0")
        self.assertEqual(self.told("a.tape")[1], script.tape)
        self.check(self.card(script, "/dev/full", "--over"), 2, err="no file that could be written over", no_out="PASS")

    def test_an_interrupt(self):
        script = Script("online-approved")
        with self.inserted("T=1", Scripted(script.answers, {3: MUTE})) as card:
            process = self.start("card", *self.words(script, "a.tape"))
            self.assertTrue(card.first.wait(30))
            time.sleep(1)
            process.send_signal(signal.SIGINT)
            out, err = process.communicate(timeout=60)
        self.assertEqual(process.returncode, 2, err)
        self.assertIn(b"the session stopped: interrupted", err)
        self.assertIn(b"a.tape INCONCLUSIVE ", out)
