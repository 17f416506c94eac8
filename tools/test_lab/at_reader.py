"""A card in the virtual reader, and `bin/card` at it: what its tests share. Not run where pcscd or vpcd is not installed."""
import contextlib
import hashlib
import json
import unittest

import virtual_reader
from trying import SAMPLES, Trial
from virtual_reader import MUTE, Card, OverT0

# Source 004, 2.3; and one that asks for T=1, its TB1 '00', IFSC 32, BWI 4, CWI 5.
ATR = {"T=0": bytes.fromhex("3B6800000073C84000009000"), "T=1": bytes.fromhex("3BA0008131204575")}
READER = "Virtual PCD 00 00"
KINDS = {"DECISION": 6, "SILENCE": 4}


class Script:
    """A sample's lines: START, the card's answers, and the words of others."""

    def __init__(self, name):
        lines = [line.split() for line in (SAMPLES / f"{name}.script").read_text().splitlines()]
        self.name, self.start = name, " ".join(lines[0]) + "\n"
        self.answers = [MUTE if word == "SILENCE" else bytes.fromhex(rest[0]) for word, *rest in lines if word in ("ANSWER", "SILENCE")]
        self.words = [text for word, *rest in lines if word in ("HOST", "RESULTS") for text in ("--" + word.lower(), rest[0])]
        self.tape = (SAMPLES / f"{name}.tape").read_bytes()


class AtAReader(Trial):
    """One service for all tests; it is stopped behind the last."""
    service = why = None

    @classmethod
    def setUpClass(cls):
        AtAReader.why = virtual_reader.missing()
        if AtAReader.why is None and AtAReader.service is None:
            try:
                AtAReader.service = virtual_reader.Service()
                unittest.addModuleCleanup(AtAReader.stop)
            except OSError as why:
                AtAReader.why = str(why)

    @staticmethod
    def stop():
        AtAReader.service.close()
        AtAReader.service = None

    def setUp(self):
        super().setUp()
        if self.why:
            self.skipTest(self.why)

    @contextlib.contextmanager
    def inserted(self, protocol, played, atr=None):
        card = Card(self.service.port, atr or ATR[protocol], played.answer, played.powered)
        try:
            yield card
        finally:
            card.pull()

    def words(self, script, tape, *more):
        start = self.folder / "start.txt"
        start.write_text(script.start)
        return ("--reader", READER, "--start", start, "--wait", "20", *script.words, *more, tape, "7")

    def card(self, script, tape, *more, **others):
        return self.bin("card", *self.words(script, tape, *more), **others)

    def told(self, tape):
        story = json.loads((self.folder / f"{tape}.json").read_text())
        data = (self.folder / tape).read_bytes()
        self.assertEqual(story["sha256"], hashlib.sha256(data).hexdigest())
        return story, data

    def silent(self, done, tape, why):
        """A session that ended in silence: INCONCLUSIVE, never PASS, and the tape ends with SILENCE."""
        story, data = self.told(tape)
        self.check(done, 1, out=f"{tape} INCONCLUSIVE ", err="silence: ", no_out="PASS")
        self.assertEqual((story["verdict"], story["last"], data[-512 + 8]), ("INCONCLUSIVE", "CLOSED", KINDS["SILENCE"]), story)
        self.assertIn(why, story["silence"])
        return story

    def over(self, protocol, played, **more):
        return OverT0(played, **more) if protocol == "T=0" else played
