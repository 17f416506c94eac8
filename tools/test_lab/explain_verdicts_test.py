"""bin/explain where no entry breaks the rules: what is waited for, what cannot be read, and a session in words; written by hand from 01."""
from taping import Explaining, block, entries, sample, tape

NOTHING = """meaning evidence for nothing: no finished session, and no entry in it that cannot be; absence of failure is not evidence
    (clause 9). 00, demand 3"""
SILENT = """
t.tape: INCONCLUSIVE after 9 entries
      ..       7 entries before (--last 0 shows them)
    7 COMMAND  READ RECORD 2 of SFI 1
    8 SILENCE  the card said nothing
  waiting    NOTHING: a closing silence stands after the command; the card owed its answer and never gave it
  last asked READ RECORD 2 of SFI 1
  meaning    evidence for nothing: no finished session, and no entry in it that cannot be; absence of failure is not
               evidence (clause 9). 00, demand 3
"""
DAMAGED = """
t.tape: UNREADABLE at block {place}, code {code}
  why        code {code}: {why}
  there      {there}
  right      {right}
  left       {left}
{sessions}  meaning    nothing is said of the terminal: the evidence is damaged. 01, "The tape"; 02, R-9
"""
OFFLINE_PIN = """
t.tape: PASS after 11 entries
    0 START    type 0 (offline only), amount 000000007500, other amount 000000000000, country 0250, currency 0978
               date 260715, transaction type 00, unpredictable number 11223344, version 008C
               floor limit 000000010000, threshold 000000005000, random 40, target 10 %, maximum 70 %
               TAC denial 0000000000, online 0000000000, default 0000000000, AID A000000003, capabilities 60E0C8
    1 COMMAND  SELECT A000000003
    2 ANSWER   status 9000
               6F FCI
                 84 DF name = A000000003
                 A5 FCI proprietary
                   9F38 PDOL = 9F33(3)
    3 COMMAND  GET PROCESSING OPTIONS
    4 ANSWER   status 9000
               80 format 1
                 82 AIP = 1000 (byte 1 b5 'Cardholder verification is supported')
                 94 AFL = SFI 1 record 1
    5 COMMAND  READ RECORD 1 of SFI 1
    6 ANSWER   status 9000
               70 record
                 5A PAN = 476123******0123 (16 digits)
                 5F24 expiry date = 281231 (2028-12-31)
                 8C CDOL1 = 95(5) 9B(2)
                 8D CDOL2 = 8A(2)
                 8E CVM list = X 0, Y 0: offline PIN if supported, else the next; signature always
                 9F42 application currency = 0978
                 9F0D IAC default = 0000800000
    7 RESULTS  succeeded, failed
    8 COMMAND  GENERATE AC, TC
    9 ANSWER   status 9000
               80 format 1
                 9F27 CID = 40 (TC)
                 9F36 ATC = 0001
                 9F26 cryptogram = 1122334455667788
   10 DECISION approved, TVR 8000000000, TSI 6000
               TVR byte 1 b8 'Data authentication was not performed'
               TSI byte 1 b7 'Cardholder verification was performed', byte 1 b6 'Card risk management was performed'
  meaning    a finished session of the rulebook: every command and the decision are those that were due. 00, demand 3
"""


class Open(Explaining):
    def test_a_closing_silence(self):
        self.whole(sample("silent-card"), SILENT)

    def test_cut_at_every_kind(self):
        """What is waited for behind some entries of a session, and of whom."""
        for name, count, said in (
            ("approved-offline", 0, """t.tape: INCONCLUSIVE after 0 entries waiting START, of the bench: the terminal's data
                last asked no command yet"""),
            ("approved-offline", 1, """due COMMAND: SELECT A0000000031010 00 A4 04 00 07 A0 00 00 00 03 10 10 00
                waiting COMMAND, of the terminal last asked no command yet"""),
            ("approved-offline", 8, """7 COMMAND READ RECORD 2 of SFI 1 waiting ANSWER, of the card: its answer to the command above
                last asked READ RECORD 2 of SFI 1"""),
            ("online-approved", 11, "waiting HOST, of the issuer: its reply to the ARQC last asked GENERATE AC, ARQC"),
            ("offline-pin", 7, """due RESULTS: 2 bytes, one for each rule of 8E
                waiting RESULTS, of the attendant: a result for each rule of 8E last asked READ RECORD 1 of SFI 1"""),
            ("approved-offline", 11, """due DECISION: approved, TVR 8000000000, TSI 2800 01 00 80 00 00 00 00 28 00
                because outcome: TC was asked for and the card gave TC waiting DECISION, of the terminal last asked GENERATE AC, TC"""),
        ):
            self.told(tape(entries(name)[:count]), f"{said} {NOTHING}")

    def test_the_second_request_when_unable(self):
        """Type 2, the issuer cannot be reached, all default codes zeros: TC, 8A is 5933."""
        self.told(tape(entries("unable")[:12]), "11 HOST unable to go online due COMMAND: GENERATE AC, TC 80 AE 40 00 0B 59 33",
                  "because request: the issuer could not be reached; TVR ",
                  "default code 0000000000 (9F0D 0000000000, TAC 0000000000) meets no bit of it: TC")


class Unreadable(Explaining):
    def damaged(self, data, place, code, why, there, right, left, *sessions):
        found = "".join(f"             session {session}\n" for session in sessions)
        self.whole(data, DAMAGED.format(place=place, code=code, why=why, there=there, right=right, left=left, sessions=found))

    def test_codes_of_the_whole_tape(self):
        good = sample("approved-offline")
        self.damaged(good + bytes(513 * 1024 - len(good)), 0, 1, "longer than a tape can be", "525,312 bytes",
                     "at most 524,288 bytes, 1,024 blocks",
                     "12 of 1026 blocks good by themselves; none at steps 12-1025 (bin/recover lists them)", "7: blocks 0-11")
        self.damaged(good[:2 * 512 + 300], 2, 2, "not a multiple of 512 bytes", "1324 bytes: 2 whole blocks and 300 bytes",
                     "whole blocks of 512 bytes",
                     "2 of 2 blocks good by themselves; 300 bytes behind the last whole block (bin/recover lists them)", "7: blocks 0-1")
        self.damaged(b"x", 0, 2, "not a multiple of 512 bytes", "1 byte: 0 whole blocks and 1 byte", "whole blocks of 512 bytes",
                     "0 of 0 blocks good by themselves; 1 byte behind the last whole block")

    def test_codes_of_a_block(self):
        """Block 3 of a good tape, with the field that each code is about."""
        made = entries("approved-offline")
        kind, payload = made[3]
        self.assertEqual(len(payload), 18)
        good, whole = block(3, kind, payload), tape(made)
        wrong = good[:508] + bytes((good[508] ^ 0xFF,)) + good[509:]
        stored, right = (data[508:].hex().upper() for data in (wrong, good))
        gone = "11 of 12 blocks good by themselves; none at step 3 (bin/recover lists them)", "7: blocks 0-2, 4-11"
        all_there = "12 of 12 blocks good by themselves (bin/recover lists them)"
        for data, *said in (
            (wrong, 3, "check (CRC-32)", f"the stored check is {stored}", f"bytes 0 to 507 give {right}", *gone),
            (block(4, kind, payload), 4, "block number", "the block calls itself 4", "3", all_there, "7: blocks 0-2, 4, 4-11"),
            (block(3, kind, payload, 9), 5, "session number", "the block is of session 9", "session 7, as block 0 is", all_there,
             "7: blocks 0-2, 4-11", "9: blocks 3"),
            (block(3, 0, payload), 6, "kind", "kind 0", "a kind from 1 to 7", *gone),
            (block(3, 8, payload), 6, "kind", "kind 8", "a kind from 1 to 7", *gone),
            (block(3, kind, payload, at9=b"\x01"), 7, "byte 9", "byte 9 is 01", "00", *gone),
            (block(3, kind, payload, at10=b"\x01\xF1"), 8, "length of the payload", "a payload of 497 bytes", "at most 496", *gone),
            (block(3, kind, payload, at507=b"\x02"), 9, "a byte after the payload", "byte 507 is 02, behind a payload of 18 bytes", "00",
             *gone),
        ):
            self.damaged(whole[:1536] + data + whole[2048:], 3, *said)


class Passing(Explaining):
    def test_a_session_in_words(self):
        self.whole(sample("offline-pin"), OFFLINE_PIN, "--last", "0", status=0)

    def test_a_reason_in_words(self):
        self.told(sample("terminated"), """94 AFL = SFI 1 records 0-1
            5 DECISION terminated, reason 6 (AFL wrong), TVR 0000000000, TSI 0000 meaning""", status=0)

    def test_what_was_filled_with_zeros(self):
        """02, R-6: samples/README.md says which they are."""
        self.told(sample("asked-for-more"), "t.tape: PASS after 15 entries; 4 list entries filled with zeros", """
            zeros in 9F38: 9F40(5) additional capabilities, 82(2) AIP; in 8C: 9F35(1) terminal type; in 8D: DF01(0). 02, R-6""", status=0)

    def test_zeros_that_cannot_be_accounted_for(self):
        """The judge's number is what is said; where the list does not come to it, there is no list."""
        from lab.explaining import layout
        from lab.explaining.explained import Walk
        from lab.explaining.hiding import Hider
        from lab.findings import Finding
        from lab.kinds import name_of
        walk = Walk([(name_of(kind), payload) for kind, payload in entries("asked-for-more")], 2, Hider([], False))
        self.assertEqual(len(walk.accounted(Finding("PASS", 15, 0, 4))), 4)
        for number in (0, 3, 5):
            finding = Finding("PASS", 15, 0, number)
            self.assertIsNone(walk.accounted(finding))
            self.assertEqual(layout.zeros_note(finding, None), [("zeros", f"{number}, which could not be accounted for here. 02, R-6")])
