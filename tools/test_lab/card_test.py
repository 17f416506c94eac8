"""bin/card: sessions with virtual cards in a virtual reader, and what is silence there."""
import random
import subprocess
import time

from at_reader import ATR, KINDS, READER, AtAReader, Script
from trying import SAMPLES
from virtual_reader import MUTE, PULL, OverT0, Scripted


class Samples(AtAReader):
    def test_every_sample_over_both_protocols(self):
        count = 0
        for protocol in ("T=0", "T=1"):
            for path in sorted(SAMPLES.glob("*.script")):
                script = Script(path.stem)
                tape = f"{path.stem}-{protocol[2]}.tape"
                with self.subTest(tape=tape), self.inserted(protocol, self.over(protocol, Scripted(script.answers))):
                    done = self.card(script, tape, "--within", "2" if MUTE in script.answers else "20")
                    story, data = self.told(tape)
                    self.assertEqual(data, script.tape, done)
                    self.assertEqual((story["protocol"], story["atr"], story["reader"]), (protocol, ATR[protocol].hex().upper(), READER))
                    self.assertEqual(done.status, 1 if MUTE in script.answers else 0, done)
                    count += 1
        self.assertEqual(count, 2 * len(list(SAMPLES.glob("*.script"))))

    def test_a_card_after_the_sheet(self):
        """Source 004: its answer to reset (2.3), its answer to SELECT (4.2.3), and its profile of 2, 3 and 2 records in three files."""
        records = {key: bytes.fromhex("7000") for key in [(1, 1), (1, 2), (2, 1), (2, 2), (2, 3), (3, 1), (3, 2)]}
        records[1, 1] = bytes.fromhex("70155A0847617390010100105F24032812319F08020001")
        records[2, 2] = bytes.fromhex("700C8C039F37048D058A029F3704")

        class Sheet:
            def powered(self):
                pass

            def answer(self, command):
                ins, first, second = command[1:4]
                if ins == 0xA4:
                    known = command[5:12] == bytes.fromhex("A0000000031010")
                    return bytes.fromhex("6F0B8407A0000000031010A5009000" if known else "6A82")
                if ins == 0xA8:
                    return bytes.fromhex("7712" + "82021800" + "940C" + "080102001001030018010200" + "9000")
                if ins == 0xB2:
                    return records[second >> 3, first] + b"\x90\x00"
                return bytes([0x80, 0x12, first]) + bytes.fromhex("0001" + "1122334455667788" + "06010A03A0B000" + "9000")

        script = Script("online-approved")
        with self.inserted("T=0", OverT0(Sheet()), bytes.fromhex("3B6800000073C84000009000")) as card:
            self.check(self.card(script, "sheet.tape"), 0, out="sheet.tape PASS 25 0 ")
        story, _ = self.told("sheet.tape")
        self.assertTrue(story["last"].startswith("DECISION 0100"), story)
        self.assertIn("ACCEPTED direct T=0", story["read_atr"])
        self.assertIn("historical=4..12:0073C84000009000", story["read_atr"])
        self.assertEqual({command[1] for command in card.commands}, {0xA4, 0xA8, 0xB2, 0xAE, 0xC0})


class Silences(AtAReader):
    def test_pulled_at_every_command(self):
        script, count = Script("online-approved"), 0
        for protocol in ("T=0", "T=1"):
            for number in range(len(script.answers)):
                tape = f"pull-{protocol[2]}-{number}.tape"
                with self.subTest(tape=tape):
                    with self.inserted(protocol, self.over(protocol, Scripted(script.answers, {number: PULL}))):
                        done = self.card(script, tape)
                    self.silent(done, tape, "")
                    count += 1
        self.assertEqual(count, 12)

    def test_mute_at_every_command(self):
        script, count = Script("online-approved"), 0
        for protocol in ("T=0", "T=1"):
            for number in range(len(script.answers)):
                tape = f"mute-{protocol[2]}-{number}.tape"
                with self.subTest(tape=tape):
                    with self.inserted(protocol, self.over(protocol, Scripted(script.answers, {number: MUTE}))):
                        done = self.card(script, tape, "--within", "1", seconds=60)
                    self.silent(done, tape, "SCardTransmit did not come back within 1 s and was left behind")
                    count += 1
        self.assertEqual(count, 12)

    def test_answers_of_any_length(self):
        """Fewer than two bytes are silence. Two are a status, 258 the most that is taken, 259 and more reason 1: these are answers."""
        script, count = Script("online-approved"), 0
        status, most = bytes.fromhex("6A82"), 65535
        for protocol in ("T=0", "T=1"):
            for size in (1, 2, 258, 259, 4096 if protocol == "T=0" else most):
                tape = f"size-{protocol[2]}-{size}.tape"
                answer = bytes(max(0, size - 2)) + status if size > 1 else b"\x90"
                with self.subTest(tape=tape):
                    with self.inserted(protocol, self.over(protocol, Scripted(script.answers, {1: answer}))):
                        done = self.card(script, tape)
                    if size < 2:
                        self.silent(done, tape, f"the reader gave {size} bytes")
                    else:
                        reason = 2 if size <= 258 else 1
                        self.check(done, 0, out=f"{tape} PASS 6 0 0")
                        self.assertTrue(self.told(tape)[0]["last"].startswith(f"DECISION 03{reason:02X}"))
                    count += 1
        self.assertEqual(count, 10)

    def test_lengths_that_no_virtual_reader_gives(self):
        """The same through a reader of our own: no byte at all, and an answer of the longest extended length."""
        from lab import exchange, pcsc

        class Fixed:
            def __init__(self, answer):
                self.answer = answer

            def transmit(self, data):
                if isinstance(self.answer, pcsc.Fault):
                    raise self.answer
                return self.answer
        for answer in (b"", b"\x90", pcsc.Fault("SCardTransmit", 0x80100068, "Card was reset."), pcsc.Fault("SCardTransmit", 1, "?")):
            with self.assertRaises(exchange.Silence):
                exchange.Whole(exchange.Reader(Fixed(answer), 5)).answered(bytes(5))
        for size in (2, 258, 259, 496, 497, 65538):
            line = exchange.Whole(exchange.Reader(Fixed(bytes(size)), 5)).answered(bytes(5))
            self.assertEqual(len(line), len("MESSAGE \n") + 2 * min(size, exchange.TOLD_MOST))
            handed = self.bin("run", "hand_answer", given=line)
            self.check(handed, 0, out="ANSWER " + "00" * (size if size <= 496 else 259) + "\n")

    def test_61_and_6c_everywhere(self):
        """At each header of a session under T=0 the card tells a length instead. Where the layer takes it the tape is the sample's; else
        it refuses, which is silence. '6C' is taken once a command, not to a header that went out with data; '61' where data may come."""
        script = Script("online-approved")
        played = OverT0(Scripted(script.answers))
        with self.inserted("T=0", played) as card:
            self.check(self.card(script, "plain.tape"), 0)
        headers, seen = list(card.commands), {"same": 0, "silent": 0}
        own = [header[1] != 0xC0 for header in headers]
        for number, header in enumerate(headers):
            for first in (0x61, 0x6C):
                tape = f"told-{first:02X}-{number}.tape"
                again = header[1] != 0xC0 and len(header) == 5 and header[4] != 0
                with self.subTest(tape=tape):
                    with self.inserted("T=0", OverT0(Scripted(script.answers), {number: lambda made, first=first: made.told(first)})):
                        done = self.card(script, tape)
                    if first == 0x61 or not own[number] or (len(header) == 5 and not again):
                        self.assertEqual((done.status, self.told(tape)[1]), (0, script.tape), done)
                        seen["same"] += 1
                    else:
                        self.silent(done, tape, "the T=0 layer refused what the reader gave: " + ("MANY-6C" if again else "PLACE"))
                        seen["silent"] += 1
        self.assertEqual(sum(seen.values()), 2 * len(headers))
        self.assertTrue(min(seen.values()) > 3, seen)


class Killed(AtAReader):
    def test_at_any_moment(self):
        """Whatever is on the tape when the command is killed: a PASS has its DECISION."""
        script, chance, begun = Script("online-approved"), random.Random(41), 0
        for round_ in range(24):
            protocol = ("T=0", "T=1")[round_ % 2]
            tape = f"kill-{round_}.tape"
            with self.inserted(protocol, self.over(protocol, Scripted(script.answers, pause=0.02))) as card:
                process = self.start("card", *self.words(script, tape), stdout=subprocess.DEVNULL, stderr=subprocess.DEVNULL)
                card.first.wait(30)
                time.sleep(chance.uniform(0, 0.3))
                process.kill()
                process.communicate(timeout=30)
            self.assertTrue(self.ends(tape), tape)
            if (self.folder / tape).exists():
                begun += 1
                done = self.bin("judge", tape)
                verdict = done.out.split()[1].decode()
                data = (self.folder / tape).read_bytes()
                self.assertEqual(verdict, "PASS" if data[-512 + 8] == KINDS["DECISION"] else "INCONCLUSIVE", done)
        self.assertGreater(begun, 12)

    def ends(self, tape):
        """Until the kernel, which meets the end of its input, has stopped writing."""
        sizes = []
        for _ in range(20):
            path = self.folder / tape
            sizes.append(path.stat().st_size if path.exists() else 0)
            if len(sizes) > 3 and len(set(sizes[-3:])) == 1 and sizes[-1] % 512 == 0:
                return True
            time.sleep(0.1)
        return False
