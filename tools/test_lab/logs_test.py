"""bin/tape-from-log and bin/log-from-tape: what the log and the side file say, and nothing else."""
import os

from lab import files, log_formats, log_side, log_t0, tapes
from lab.log_reading import Exchange, NotOfTheFormat
from lab.words import Undone
from trying import PASS, SAMPLES, UNREADABLE, Trial, closed, limited

FORMATS = ("scriptor", "gppro", "opensc-tool", "pcscd", "sheet")
READABLE = sorted(path for path in SAMPLES.glob("*.tape") if path != UNREADABLE)
# samples/terminated.tape: SELECT, GET PROCESSING OPTIONS, and the decision.
TAPE = SAMPLES / "terminated.tape"
START = ("0200000000100000000000000008260826260630001A2B3C4D000000010000320A0000000050002800010000000000000000000000000000"
         "0007A000000003101000000000000000000060E0C8")
SIDE = f"LEVEL APDU\nSTART {START}\nEXCHANGES 2\nDECISION 030600000000000000\n"
# The same session as each tool prints it, written by hand.
LOGS = {
    "scriptor": """Using given card reader: Virtual PCD 00 00
Using T=1 protocol
Reading commands from STDIN
> 00 a4 04 00 07 a0 00 00 00 03 10 10 00 
< 6F 21 84 07 A0 00 00 00 03 10 10 A5 16 50 08 4C 
41 42 20 43 41 52 44 9F 38 09 9F 02 06 9F 1A 02 
5F 2A 02 90 00 : Normal processing.
> 80 A8 00 00 0C 83 0A 00 00 00 00 10 00 08 26 08 26 00
< 80 06 08 00 08 00 01 00 90 00 : Normal processing.
""",
    "gppro": """SCardConnect("Some Reader 00 00", T=*) -> T=1, 3B680000000073C84000009000
SCardBeginTransaction("Some Reader 00 00")
A>> T=1 (4+0007) 00A40400 07 A0000000031010 00
A<< (0035+2) (12ms) 6F218407A0000000031010A51650084C414220434152449F38099F02069F1A025F2A02 9000
A>> T=1 (4+0012) 80A80000 0C 830A00000000100008260826 00
A<< (0008+2) (1s201ms) 8006080008000100 9000
SCardEndTransaction("Some Reader 00 00")
SCardDisconnect("Some Reader 00 00", true)
""",
    "opensc-tool": """Using reader with a card: Some Reader 00 00
Sending: 00 A4 04 00 07 A0 00 00 00 03 10 10 00 
Received (SW1=0x90, SW2=0x00):
6F 21 84 07 A0 00 00 00 03 10 10 A5 16 50 08 4C o!...........P.L
41 42 20 43 41 52 44 9F 38 09 9F 02 06 9F 1A 02 AB CARD.8.......
5F 2A 02                                        _*.
Sending: 80 A8 00 00 0C 83 0A 00 00 00 00 10 00 08 26 08 26 00 
Received (SW1=0x90, SW2=0x00):
80 06 08 00 08 00 01 00 ........
""",
    "pcscd": """00000000 APDU: 00 A4 04 00 07 A0 00 00 00 03 10 10 00 
00012345 SW: 6F 21 84 07 A0 00 00 00 03 10 10 A5 16 50 08 4C 41 42 20 43 41 52 44 9F 38 09 9F 02 06 9F 1A 02 5F 2A 02 90 00 
00000031 [140187] APDU: 80 A8 00 00 0C 83 0A 00 00 00 00 10 00 08 26 08 26 00 
00009876 [140187] SW: 80 06 08 00 08 00 01 00 90 00 
""",
    "sheet": """SELECT DF A0000000031010
* APDU: 00A4040007 || A0000000031010 || 00
* RESP: 6F21 || 84 07 A0000000031010 || A5 16 || 50084C4142204341
5244 || 9F38 09 9F02069F1A025F2A02
* SW12: 9000

GET PROCESSING OPTIONS
* APDU: 80A800000C || 83 0A 0000000010000826
      || 0826 || 00
* RESP: 8006080008000100
* SW12: 9000
END
"""}


def entries_of(path):
    return tapes.entries(path.read_bytes())[1]


def exchanges_in(path):
    return [Exchange(*one) for one in log_side.apart(entries_of(path))[0]]


def t0_card(exchanges, most=256):
    """Exchanges as a T=0 card and its reader show them, by hand: '61' for what a command with data is answered, in pieces of `most` bytes,
    '6C' for one without data."""
    made = []
    for command, answer, _ in exchanges:
        data, status = (answer[:-2], answer[-2:]) if answer is not None else (b"", None)
        if len(command) == 5 and data:
            made += [(command, bytes([0x6C, len(data)])), (command[:4] + bytes([len(data)]), answer)]
            continue
        pieces = [data[at:at + most] for at in range(0, len(data), most)]
        sent = [command[:-1] if len(command) > 5 else command] + [bytes([0, 0xC0, 0, 0, len(piece)]) for piece in pieces]
        ends = [bytes([0x61, len(piece)]) for piece in pieces] + [status]
        made += zip(sent, [ends[0], *(piece + end for piece, end in zip(pieces, ends[1:]))])
    return [Exchange(*one) for one in made]


def side_of(path, level="LEVEL APDU"):
    return log_side.written(log_side.apart(entries_of(path))[1]).replace("LEVEL APDU", level)


class LogTrial(Trial):
    def given(self, log, side=SIDE):
        (self.folder / "a.log").write_bytes(log.encode() if isinstance(log, str) else log)
        (self.folder / "a.side").write_bytes(side.encode())

    def tape_from(self, name, log, side=SIDE, more=(), **options):
        self.given(log, side)
        return self.bin("tape-from-log", "--format", name, "--side", "a.side", *more, "a.log", "a.tape", "7", **options)

    def refused(self, name, log, side=SIDE, **more):
        self.check(self.tape_from(name, log, side), 2, no_out=" ", **more)
        self.assertFalse((self.folder / "a.tape").exists())


class RoundTrips(LogTrial):
    def test_logs_written_by_hand(self):
        for name in FORMATS:
            self.check(self.tape_from(name, LOGS[name], more=("--over",)), 0, out="a.tape PASS 6 0 0\n")
            self.assertEqual((self.folder / "a.tape").read_bytes(), TAPE.read_bytes(), name)

    def test_every_sample_in_every_format(self):
        for name in FORMATS:
            for path in READABLE:
                exchanges, items = log_side.apart(entries_of(path))
                log = log_formats.written(name, [Exchange(*one) for one in exchanges])
                found = log_formats.FORMATS[name]().read(log)[0]
                self.assertEqual([one[:2] for one in found], exchanges, (name, path))
                side = log_side.read(log_side.written(items))
                self.assertEqual(tapes.written(7, log_side.joined_with(side, found)), path.read_bytes(), (name, path))
                self.assertEqual(log_formats.written(name, found), log)
        self.assertGreater(len(READABLE), 15)

    def test_both_commands(self):
        for name in FORMATS:
            for path, line in ((SAMPLES / "online-pin.tape", "PASS 16 0 0"), (SAMPLES / "silent-card.tape", "INCONCLUSIVE 9 0 0"),
                               (SAMPLES / "no-such-day.tape", "FAIL 0 0 0")):
                more = ("--over", "--format", name, "--side", "b.side")
                said = f"session 7, {len(exchanges_in(path))} exchanges: b.log\n"
                self.check(self.bin("log-from-tape", *more, path, "b.log"), 0, out=said)
                self.check(self.bin("tape-from-log", *more, "b.log", "b.tape", "7"), 0 if "PASS" in line else 1, out=f"b.tape {line}\n")
                self.assertEqual((self.folder / "b.tape").read_bytes(), path.read_bytes(), (name, path))

    def test_answers_of_every_length(self):
        for name in FORMATS:
            for size in [*range(2, 70), 256, 257, 258, 300, 496]:
                exchanges = [Exchange(b"\0\xb2\1\x0c\0", bytes(k * 7 & 0xFF for k in range(size - 2)) + b"\x90\0")] * 2
                found = log_formats.FORMATS[name]().read(log_formats.written(name, exchanges))[0]
                self.assertEqual([one[:2] for one in found], [one[:2] for one in exchanges], (name, size))


class Lines(LogTrial):
    def test_an_unknown_line_anywhere(self):
        for name in FORMATS:
            rows = LOGS[name].split("\n")[:-1]
            for at in range(len(rows) + 1):
                for strange in ("Hello", "> 00 A4 0", "\t", "A<< (0000+2) (1ms) EXCEPTION", "00000001 winscard.c:292:SCardConnect() x",
                                "* SW12: 90"):
                    text = "\n".join([*rows[:at], strange, *rows[at:]]) + "\n"
                    with self.assertRaises(NotOfTheFormat) as caught:
                        log_formats.FORMATS[name]().read(text)
                    self.assertRegex(str(caught.exception), rf"^line {at + 1}: ", (name, strange))
            self.refused(name, "\n".join([*rows[:2], "Hello", *rows[2:]]) + "\n", err="a.log: line 3: no line of this format")

    def test_a_line_that_is_missing_or_twice(self):
        """Such a log is refused, or says the same, or lacks its last answer. A line that holds a part of an answer's bytes and nothing else
        can be missed in formats that do not say how many there are; those are left out here."""
        right = [one[:2] for one in exchanges_in(TAPE)]
        for name in FORMATS:
            rows = LOGS[name].split("\n")[:-1]
            for at, row in enumerate(rows):
                for changed in (rows[:at] + rows[at + 1:], rows[:at] + [row] + rows[at:]):
                    try:
                        found = [one[:2] for one in log_formats.FORMATS[name]().read("\n".join(changed) + "\n")[0]]
                    except NotOfTheFormat:
                        continue
                    if found != right and name in ("gppro", "pcscd"):
                        self.assertIn(found, (right[:-1] + [(right[-1][0], None)],), (name, row))

    def test_a_log_that_is_cut(self):
        right = [one[:2] for one in exchanges_in(TAPE)]
        for name in FORMATS:
            whole = LOGS[name]
            for at in range(len(whole)):
                try:
                    found = [one[:2] for one in log_formats.FORMATS[name]().read(whole[:at])[0]]
                except NotOfTheFormat:
                    continue
                self.assertEqual(whole[at - 1:at] or "\n", "\n")
                if name not in ("opensc-tool",):
                    self.assertTrue(found == right[:len(found)] or found[:-1] + [right[len(found) - 1]] == right[:len(found)], (name, at))

    def test_bytes_that_are_not_as_the_line_says(self):
        for name, old, new in (("gppro", "(0035+2)", "(0034+2)"), ("gppro", "(4+0007)", "(4+0008)"), ("gppro", " 07 A0", " 08 A0"),
                               ("gppro", "A0000000031010 00", "A0000000031010 0000"), ("gppro", "12ms", "fast"),
                               ("opensc-tool", "AB CARD", "AB CORD"), ("opensc-tool", "5F 2A 02", "5F 2B 02"),
                               ("opensc-tool", "SW1=0x90", "SW1=90"), ("opensc-tool", "02 AB CARD.8", "02  AB CARD.8"),
                               ("scriptor", "4C \n41", "4C\n41"), ("scriptor", "> 80", "> RESET\n< OK: 3B \n> 80"),
                               ("scriptor", " : Normal", " "), ("pcscd", "90 00 \n00000031", "...\n00000031"), ("pcscd", "SW: 80", "SW: "),
                               ("sheet", "84 07", "84 Lc"), ("sheet", "5244 ||", "524 ||"), ("sheet", "* SW12: 9000\n\n", "\n"),
                               ("sheet", "GET PROC", "(successful)\nGET PROC")):
            self.assertIn(old, LOGS[name])
            self.refused(name, LOGS[name].replace(old, new, 1), err="a.log: line ")
        self.refused("sheet", "* APDU: 80E20000 Lc || 0101 || Length (1 byte) || record 1\n* SW12: 9000\n", err="line 2: not bytes")
        self.refused("sheet", "(successful secure channel opening - case of security level = '00')\n", err="line 1: exchanges are left out")

    def test_text_that_is_none(self):
        for name in FORMATS:
            self.refused(name, LOGS[name].encode() + b"\xff\n", err="no text in UTF-8")
            self.refused(name, LOGS[name].replace("\n", "\r\n"), err="line 1: ")
            self.refused(name, "", err="the log has 0 exchanges")
            self.refused(name, LOGS[name].rstrip("\n"), err="the last line is not whole")

    def test_a_second_session_in_one_log(self):
        for name, row in (("scriptor", "Using T=1 protocol"), ("gppro", 'SCardConnect("X", T=*) -> T=1, 3B00'),
                          ("opensc-tool", "Using reader with a card: X")):
            with self.assertRaises(NotOfTheFormat):
                log_formats.FORMATS[name]().read(LOGS[name] + row + "\n" + LOGS[name])

    def test_an_echo_that_is_another_command(self):
        log = LOGS["scriptor"].replace("> 80 A8", "# a remark\n80A800000C830A0000000010000826082600\n> 80 A8")
        self.check(self.tape_from("scriptor", log), 0)
        done = self.tape_from("scriptor", log.replace("80A800000C", "80A800000D"), more=("--over",))
        self.check(done, 2, err="another command than the line above")


class NothingMadeUp(LogTrial):
    def test_no_decision_is_added(self):
        side = SIDE.replace("DECISION 030600000000000000\n", "")
        self.check(self.tape_from("scriptor", LOGS["scriptor"], side), 1, out="a.tape INCONCLUSIVE 5 0 0\n")

    def test_a_log_that_ends_behind_a_command(self):
        log = LOGS["scriptor"][:LOGS["scriptor"].rindex("< 80")]
        side = SIDE.replace("DECISION 030600000000000000\n", "")
        self.check(self.tape_from("scriptor", log, side), 1, out="a.tape INCONCLUSIVE 4 0 0\n")
        self.check(self.tape_from("scriptor", log, side + "SILENCE\n", more=("--over",)), 1, out="a.tape INCONCLUSIVE 5 0 0\n")
        self.check(self.tape_from("scriptor", log, more=("--over",)), 1, out="a.tape FAIL 4 0 0\n")

    def test_a_command_in_the_middle_without_an_answer(self):
        rows = LOGS["pcscd"].split("\n")
        self.refused("pcscd", "\n".join([rows[0], *rows[2:]]), err="line 2: a command, and the one before it has no answer")
        self.refused("pcscd", "\n".join(rows[1:]), err="line 1: an answer, and no command before it")

    def test_side_files_that_are_none(self):
        changes = (("LEVEL APDU\n", "", "LEVEL APDU or LEVEL TPDU stands first"), ("APDU", "BPDU", "LEVEL"), ("APDU", "TPDU", "needs LE"),
                   ("APDU", "APDU\nLE 0000", "LE is one byte"), ("EXCHANGES 2", "EXCHANGES 1", "places 1 of them"),
                   ("EXCHANGES 2", "EXCHANGES 3", "places more"), ("EXCHANGES 2", "EXCHANGES 0", "a number from 1 on"),
                   ("EXCHANGES 2", "EXCHANGES", "a number"), ("EXCHANGES 2\n", "", "places 0 of them"), ("START", "BEGIN", "line 2: BEGIN"),
                   (f"START {START}\n", "", "START is missing"), ("EXCHANGES 2", "EXCHANGES 1\nSTART 00\nLEVEL APDU", "line 5: LEVEL"))
        sides = [(SIDE.replace(old, new), word) for old, new, word in changes]
        sides += [(SIDE[:-1], "not whole"), ("", "LEVEL"), (SIDE.lower(), "line 1")]
        sides += [(SIDE + line + "\n", word) for line, word in (
            ("ANSWER 9000", "line 5: ANSWER"), ("COMMAND 00", "line 5: COMMAND"), ("HOST 0", "line 5: 0: not bytes"),
            ("HOST  01", "line 5"), ("SILENCE 00", "line 5: SILENCE"), ("", "line 5: no line"), ("LE 00", "line 5: LE"),
            ("HOST " + "00" * 497, "has room for 496"))]
        for side, word in sides:
            self.refused("scriptor", LOGS["scriptor"], side, err=("a.side: ", word))

    def test_remarks(self):
        self.check(self.tape_from("scriptor", LOGS["scriptor"], "# a\n" + SIDE + "#b\n"), 0)

    def test_an_answer_that_no_block_holds(self):
        long = log_formats.written("pcscd", [Exchange(b"\0\xa4\4\0", bytes(495) + b"\x90\0")])
        self.refused("pcscd", long, SIDE.replace("EXCHANGES 2", "EXCHANGES 1"), err="has room for 496")

    def test_le_that_the_log_does_not_have(self):
        log = LOGS["sheet"].replace("A0000000031010 || 00", "A0000000031010").replace("0826 || 00", "0826")
        self.check(self.tape_from("sheet", log), 1, out="a.tape FAIL 1 0 0\n")
        self.check(self.tape_from("sheet", log, SIDE.replace("APDU", "APDU\nLE 00"), more=("--over",)), 0)
        self.assertEqual((self.folder / "a.tape").read_bytes(), TAPE.read_bytes())


class T0(LogTrial):
    LEVEL = "LEVEL TPDU\nLE 00"

    def test_the_sample(self):
        names = (SAMPLES / "online-over-t0.side", SAMPLES / "online-over-t0.log")
        self.check(self.bin("tape-from-log", "--format", "pcscd", "--side", *names, "a.tape", "7"), 0, out="a.tape PASS 15 0 0\n")
        self.assertEqual((self.folder / "a.tape").read_bytes(), (SAMPLES / "online-approved.tape").read_bytes())

    def test_every_sample(self):
        """The layer's own turns are put together by exchange_t0; the tape is the sample's, byte for byte."""
        for path in READABLE:
            for most in (256, 7) if path.stem != "transit" else (256,):
                found = log_t0.assembled(t0_card(exchanges_in(path), most), b"\0")
                self.assertEqual([one[:2] for one in found], [one[:2] for one in exchanges_in(path)], (path, most))

    def test_both_formats(self):
        path = SAMPLES / "online-approved.tape"
        for name in ("scriptor", "pcscd"):
            log = log_formats.written(name, t0_card(exchanges_in(path)))
            done = self.tape_from(name, log, side_of(path, self.LEVEL), more=("--over",))
            self.check(done, 0, out="a.tape PASS 15 0 0\n")
            self.assertEqual((self.folder / "a.tape").read_bytes(), path.read_bytes())

    def test_other_levels(self):
        path = SAMPLES / "online-approved.tape"
        tpdus = t0_card(exchanges_in(path))
        log = "Using T=1 protocol\n" + log_formats.written("scriptor", tpdus)
        self.refused("scriptor", log, side_of(path, self.LEVEL), err="the log says T=1")
        for name in ("gppro", "opensc-tool", "sheet"):
            self.refused(name, log_formats.written(name, tpdus), side_of(path, self.LEVEL), err="has whole commands")
        self.refused("pcscd", log_formats.written("pcscd", tpdus), side_of(path), err="exchanges, and the side file places")

    def test_turns_that_t0_does_not_take(self):
        tpdus = t0_card(exchanges_in(TAPE))
        select, response, options, data = tpdus
        get = response.command
        record = b"\0\xb2\1\x0c"
        for wrong, word in (([select, options], "T=0 sends 00C0000023 here"), ([select, data], "T=0 sends 00C0000023 here"),
                            ([select, response._replace(command=get[:4] + b"\x22")], "T=0 sends"),
                            ([select, response._replace(answer=response.answer[1:])], "no answer"),
                            ([select, response._replace(answer=b"\0" + response.answer)], "REFUSED BYTE"),
                            ([select, response._replace(answer=response.answer + b"\0")], "stand behind the end"),
                            ([select._replace(command=select.command + b"\0"), response], "the data that T=0 sends"),
                            ([select._replace(command=select.command[:4])], "T=0 sends"),
                            ([select._replace(answer=b"\x50\0")], "REFUSED BYTE"),
                            ([Exchange(record + b"\0", b"\x6c\1"), Exchange(record + b"\1", b"\x6c\2")], "REFUSED MANY-6C")):
            wrong = [one._replace(line=k) for k, one in enumerate(wrong, 1)]
            with self.assertRaises(Undone, msg=word) as caught:
                log_t0.assembled(wrong, b"\0")
            self.assertRegex(str(caught.exception), "^line [12]: ")
            self.assertIn(word, str(caught.exception))

    def test_a_log_that_ends_within_the_layers_turns(self):
        path = SAMPLES / "online-approved.tape"
        tpdus = t0_card(exchanges_in(path))
        for count in range(1, len(tpdus)):
            found = log_t0.assembled(tpdus[:count], b"\0")
            whole = [one[:2] for one in exchanges_in(path)]
            ends = [one[:2] for one in found]
            self.assertTrue(ends == whole[:len(ends)] or ends == whole[:len(ends) - 1] + [(whole[len(ends) - 1][0], None)], count)


class Files(LogTrial):
    def test_a_tape_that_is_there(self):
        self.tape("a.tape", b"mine")
        self.check(self.tape_from("scriptor", LOGS["scriptor"]), 2, err="a.tape: is there already")
        self.assertEqual((self.folder / "a.tape").read_bytes(), b"mine")
        os.symlink("nowhere", self.folder / "b.tape")
        self.check(self.bin("tape-from-log", "--format", "scriptor", "--side", "a.side", "a.log", "b.tape", "7"), 2, err="is there already")
        self.check(self.tape_from("scriptor", LOGS["scriptor"], more=("--over",)), 0)
        self.assertEqual((self.folder / "a.tape").read_bytes(), TAPE.read_bytes())

    def test_a_bad_log_leaves_a_tape_that_is_there(self):
        self.tape("a.tape", PASS)
        self.check(self.tape_from("scriptor", "Hello\n", more=("--over",)), 2)
        self.assertEqual((self.folder / "a.tape").read_bytes(), PASS.read_bytes())

    def test_a_full_disk_and_closed_streams(self):
        self.check(self.tape_from("scriptor", LOGS["scriptor"], preexec_fn=limited(1000)), 2, err="File too large")
        self.assertEqual(sorted(path.name for path in self.folder.iterdir()), ["a.log", "a.side"])
        self.check(self.tape_from("scriptor", LOGS["scriptor"], stdout=None, preexec_fn=closed(1)), 2, err="standard output")
        with open("/dev/full", "wb") as full:
            self.check(self.tape_from("scriptor", LOGS["scriptor"], more=("--over",), stdout=full), 2, err="standard output")

    def test_what_is_asked(self):
        self.given(LOGS["scriptor"])
        more = ("--format", "scriptor", "--side", "a.side")
        for words in ((), ("a.log", "a.tape", "7"), (*more, "a.log", "a.tape"), (*more, "a.log", "a.tape", "x"),
                      (*more, "a.log", "a.tape", "4294967296"), (*more, "missing", "a.tape", "7"), (*more, ".", "a.tape", "7"),
                      ("--format", "song", "--side", "a.side", "a.log", "a.tape", "7"), (*more, "a.log", "no/folder/a.tape", "7"),
                      ("--format", "scriptor", "--side", "missing", "a.log", "a.tape", "7")):
            self.check(self.bin("tape-from-log", *words), 2, no_out="PASS")
            self.assertFalse((self.folder / "a.tape").exists())
        self.check(self.bin("tape-from-log", *more, "a.log", "a.tape", "4294967295"), 0)
        self.assertEqual((self.folder / "a.tape").read_bytes()[4:8], b"\xff" * 4)

    def test_tapes_of_which_no_log_is_made(self):
        start, select, fci = entries_of(TAPE)[:3]
        wrong = {"damaged": (UNREADABLE.read_bytes(), "UNREADABLE 4 3 0"),
                 "answer": (tapes.written(7, [start, fci]), "an answer, and no command"),
                 "empty": (b"", "START is missing"), "silence": (tapes.written(7, [start, tapes.Entry("SILENCE", b"x")]), "SILENCE"),
                 "bare": (tapes.written(7, [start, tapes.Entry("COMMAND", b"")]), "a command without bytes"),
                 "short": (tapes.written(7, [start, select, tapes.Entry("ANSWER", b"\x90")]), "an answer without a status"),
                 "two": (tapes.written(7, [start, select, select, fci]), "a command without an answer, and others behind it")}
        for name, (data, word) in wrong.items():
            self.tape(name, data)
            done = self.bin("log-from-tape", "--format", "pcscd", "--side", "s", name, "l")
            self.check(done, 2, err=(f"{name}: ", word))
            self.assertFalse((self.folder / "l").exists() or (self.folder / "s").exists())
        odd = tapes.written(7, [start, tapes.Entry("COMMAND", bytes.fromhex("00A4040009A000"))])
        self.tape("odd", odd)
        self.check(self.bin("log-from-tape", "--format", "gppro", "--side", "s", "odd", "l"), 2, err="this format cannot say it")
        self.check(self.bin("log-from-tape", "--format", "pcscd", "--side", "s", "odd", "l"), 0)
        self.check(self.bin("log-from-tape", "--format", "pcscd", "--side", "s", "odd", "l"), 2, err="is there already")
        self.check(self.bin("log-from-tape", "--format", "pcscd", "--side", "x", "odd", "x"), 2, err="two files")
        done = self.bin("log-from-tape", "--format", "pcscd", "--side", "y", "odd", "z", preexec_fn=limited(100))
        self.check(done, 2, err="File too large")
        self.assertFalse((self.folder / "z").exists() or (self.folder / "y").exists())

    def test_a_file_that_came_meanwhile(self):
        """Between the look and the writing somebody else has written the tape."""
        self.tape("a.tape", b"mine")
        with self.assertRaises(FileExistsError):
            files.write_new(os.fsencode(self.folder / "a.tape"), b"other", over=False)
        self.assertEqual([(path.name, path.read_bytes()) for path in self.folder.iterdir()], [("a.tape", b"mine")])
