"""bin/explain where a tape breaks the rules, at each kind of entry, in words that are written here by hand from 01 and 02."""
import random

from taping import ANSWER, COMMAND, DECISION, HOST, SILENCE, START, Explaining, changed, entries, joined, sample, tape

FACTS, COMMANDS, TERMINAL = "01, \"From facts to a decision\"", "01, \"The commands\"", "01, \"Terminal data\""
FLOOR = """
t.tape: FAIL at entry 9
      ..       7 entries before (--last 0 shows them)
    7 COMMAND  READ RECORD 2 of SFI 1
    8 ANSWER   status 9000
               70 record
                 8C CDOL1 = 9F02(6) 9F03(6) 9F1A(2) 95(5) 5F2A(2) 9A(3) 9C(1) 9F37(4)
                 8D CDOL2 = 8A(2) 95(5) 9F37(4)
                 9F0D IAC default = 0000000000
                 9F0E IAC denial = 0000000000
                 9F0F IAC online = 0000000000
>   9 COMMAND  cannot be here
      due          COMMAND: GENERATE AC, ARQC
                   80 AE 80 00 1D 00 00 00 01 00 00 00 00 00 00 00 00 08 26 80 00 00 80 00 08 26 26 06 30 00 1A 2B 3C 4D 00
      stood there  COMMAND: GENERATE AC, TC
                   80 AE 40 00 1D 00 00 00 01 00 00 00 00 00 00 00 00 08 26 80 00 00 00 00 08 26 26 06 30 00 1A 2B 3C 4D 00
                         ^^                                                          ^^
      differs      P1, offset 2: ARQC was due, TC stood there.  01, "From facts to a decision": the request
      differs      TVR byte 4 b8 'Transaction exceeds floor limit': due and not set.  01, "From facts to a decision"
      because      request: TVR 8000008000; denial code 0000000000 (9F0E 0000000000, TAC 0000000000) meets no bit of it;
                     type 2: online code 0000008000 (9F0F 0000000000, TAC 0000008000) meets byte 4 b8 'Transaction exceeds
                     floor limit': ARQC
      because      TVR byte 4 b8: AIP byte 1 has '08', and amount 10000 >= floor limit 10000
  meaning    a session can begin with the entries before this one, and none goes on with it. 00, demand 3
  note       verdict, place, code, zeros and due are the proved programs' words; everything else is display
"""


class SeenErrors(Explaining):
    """01, "Errors we have seen in approved products"."""

    def test_a_floor_limit_that_is_not_seen(self):
        """The amount is the floor limit: TVR byte 4 b8 is due, and the online code has it."""
        self.whole(sample("floor-limit-not-seen"), FLOOR)

    def test_a_percentage_that_was_rounded(self):
        """Case K: (40-10)*5000 is 150000, and 60*2499 is 149940, which is less: not selected."""
        self.told(sample("percentage-rounded"), f"""
            differs P1, offset 2: TC was due, ARQC stood there. {FACTS}: the request
            differs TVR byte 4 b5 'Transaction selected randomly for online processing': set and not due. {FACTS}; 003, 7.6.2
            because request: TVR 8000000000;""", """
            because TVR byte 4 b5: amount 7499 from threshold 5000 on: (40-10)*(10000-5000) = 150000 > 149940 = (70-10)*(7499-5000),
            nothing rounded""")

    def test_an_absent_code_that_was_taken_as_zeros(self):
        self.told(sample("absent-code-as-zeros"), f"""
            differs P1, offset 2: AAC was due, TC stood there. {FACTS}: the request
            because request: TVR 8000000000; denial code 0000000000 (9F0E 0000000000, TAC 0000000000) meets no bit of it; type 0: default
            code FFFFFFFFFF (9F0D FFFFFFFFFF as it is absent, TAC 0000000000) meets byte 1 b8 'Data authentication was not performed': AAC
            because TVR byte 1 b8: set in every session after the last record""")


class Failing(Explaining):
    def test_a_record_out_of_order(self):
        wrong = changed("approved-offline", 5, payload="00B2020C00")
        self.marks(wrong, "00 B2 02 0C 00", "      ^^")
        self.told(wrong, f"""
            > 5 COMMAND cannot be here due COMMAND: READ RECORD 1 of SFI 1 00 B2 01 0C 00
            stood there COMMAND: READ RECORD 2 of SFI 1""", f"""
            differs P1, offset 2: record 1 was due, record 2 stood there. {COMMANDS}: records in the order of the AFL, P2 is 8*SFI+4
            because record: the AFL is 08010200, none of 2 read yet: record 1 of SFI 1 is next""")

    def test_another_command(self):
        self.told(changed("approved-offline", 5, payload="80AE400000"), f"""
            differs command: READ RECORD 1 of SFI 1 was due, GENERATE AC, TC stood there (CLA 00 was due, 80 stood there; INS B2 was due,
            AE stood there). {COMMANDS}""")
        self.told(changed("approved-offline", 5, payload="00CA9F1700"), "no command of 01: CLA 00, INS CA stood there (INS B2 was due, CA")
        self.told(changed("approved-offline", 1, payload="00A4040007A000000003101100"),
                  f"differs AID, offset 11: A0000000031010 was due, A0000000031011 stood there. {COMMANDS}")
        self.told(changed("approved-offline", 1, payload="00A4040407A000000003101000"),
                  f"differs P2, offset 3: 00 was due, 04 stood there. {COMMANDS}")

    def test_a_list_that_was_filled_with_other_values(self):
        """9F38 asks for the amount (6), the country (2) and the currency (2): 000000001000, 0826, 0826; another for 9F40 too."""
        wrong = changed("approved-offline", 3, payload="80A800000C830A0000000010000826097800")
        self.marks(wrong, "80 A8 00 00 0C 83 0A 00 00 00 00 10 00 08 26 09 78 00", " " * 45 + "^^ ^^")
        self.told(wrong, f"""differs 5F2A(2) currency, offsets 15 to 16: 0826 was due, 0978 stood there. {COMMANDS}: 9F38 asks for it;
            the value, cut or filled up with zeros on the left""")
        asked = entries("asked-for-more")[3][1]
        self.assertEqual(asked.hex().upper(), "80A8000011830F" + "000000012500" + "0826" + "0000000000" + "0000" + "00")
        self.told(changed("asked-for-more", 3, payload=asked[:17] + b"\x01" + asked[18:]), f"""
            differs 9F40(5) additional capabilities, offset 17: 0000000000 was due, 0000010000 stood there. {COMMANDS}: 9F38 asks for it,
            and what is not known, or not yet, gives zeros""")

    def test_lengths(self):
        self.told(changed("approved-offline", 5, payload="00B2010C"), f"""
            differs length: 5 bytes were due, 4 stood there. {COMMANDS} differs 1 byte missing, offset 4: Le. {COMMANDS} meaning""")
        self.told(changed("approved-offline", 5, payload="00B2010C0000"), f"""
            differs length: 5 bytes were due, 6 stood there. {COMMANDS}
            differs 1 byte too many, offset 5, behind the last. {COMMANDS} meaning""")
        self.told(changed("approved-offline", 5, payload=""), f"""
            stood there COMMAND: no byte differs length: 5 bytes were due, none stood there. {COMMANDS}
            differs 5 bytes missing, offsets 0 to 4: CLA, INS, P1, P2, Le. {COMMANDS}""")
        self.told(changed("approved-offline", 1, payload="00A4040007FFA000000003101000"),
                  f"differs 1 byte too many, offset 5, before AID. {COMMANDS}")

    def test_an_entry_of_a_list_that_was_left_out(self):
        """8C asks for 29 bytes: amount, other amount, country, TVR and so on. The other amount, six bytes at offset 11, is not there."""
        asked = entries("approved-offline")[9][1]
        self.assertEqual(asked[4:19].hex().upper(), "1D" + "000000001000" + "000000000000" + "0826")
        self.told(changed("approved-offline", 9, payload=asked[:4] + b"\x17" + asked[5:11] + asked[17:]), f"""
            differs length: 35 bytes were due, 29 stood there. {COMMANDS} differs Lc, offset 4: 1D was due, 17 stood there. {COMMANDS}
            differs 6 bytes missing, offsets 11 to 16: 9F03(6) other amount. {COMMANDS} meaning""")

    def test_the_other_list(self):
        """At the first request the 11 bytes that 8D asks for: response code, TVR, number."""
        self.told(changed("approved-offline", 9, payload="80AE40000B" + "0000" + "8000000000" + "1A2B3C4D" + "00"),
                  f"differs length: 35 bytes were due, 17 stood there, as many as with 8D instead of 8C. {COMMANDS}")

    def test_a_decision(self):
        """Of a session that approves with TVR 8000000000 and TSI 2800."""
        self.assertEqual(entries("approved-offline")[11][1].hex(), "010080000000002800")
        wrong = changed("approved-offline", 11, payload="020680400000006800")
        self.marks(wrong, "02 06 80 40 00 00 00 68 00", "^^ ^^    ^^          ^^")
        self.told(wrong, f"""
            due DECISION: approved, TVR 8000000000, TSI 2800 01 00 80 00 00 00 00 28 00
            stood there DECISION: declined, reason 6 (AFL wrong), TVR 8040000000, TSI 6800""", f"""
            differs outcome, offset 0: approved (1) was due, declined (2) stood there. {FACTS}
            differs reason, offset 1: 0 (none) was due, 6 (AFL wrong) stood there. 01, "What the card must answer"
            differs TVR byte 2 b7 'Expired application': set and not due. {FACTS}; 02, R-2
            differs TSI byte 1 b7 'Cardholder verification was performed': set and not due. 02, R-7; 003, 7.5
            because outcome: TC was asked for and the card gave TC
            because TVR byte 2 b7: 5F24 is 281231, 2028-12-31: not before the date 260630, 2026-06-30
            because TSI byte 1 b7: the results of cardholder verification are not there""")
        self.told(changed("approved-offline", 11, payload="0100800000000028"), """
            differs length: 9 bytes were due, 8 stood there. 01, "The tape" differs 1 byte missing, offset 8: TSI. 01, "The tape" """)
        self.told(changed("approved-offline", 11, payload="010080000000102800"), f"""
            differs TVR byte 5 b5 'Script processing failed after final GENERATE AC': set and not due. {FACTS}: no rule sets it""")

    def test_an_expired_card(self):
        """02, R-2: 991231 is 1999-12-31. A decision without the bit, and approved."""
        self.told(changed("expired-in-1999", 11, payload="010080000000002800"), f"""
            differs outcome, offset 0: declined (2) was due, approved (1) stood there. {FACTS}
            differs TVR byte 2 b7 'Expired application': due and not set. {FACTS}; 02, R-2
            because outcome: AAC was asked for and the card gave AAC
            because TVR byte 2 b7: 5F24 is 991231, 1999-12-31: before the date 260630, 2026-06-30""")

    def test_a_terminated_session_that_goes_on(self):
        """The AFL names record 0, reason 6: the decision is due, and a READ RECORD stands there."""
        self.told(changed("terminated", 5, COMMAND, "00B2000C00"), f"""
            due DECISION: terminated, reason 6 (AFL wrong), TVR 0000000000, TSI 0000 03 06 00 00 00 00 00 00 00
            stood there COMMAND: READ RECORD 0 of SFI 1 00 B2 00 0C 00 differs kind: DECISION was due, COMMAND stood there. {FACTS}""")

    def test_where_an_answer_is_due(self):
        source = "01, \"The tape\": a command is followed by the card's answer, or closed by a silence without payload"
        self.told(changed("approved-offline", 2, kind=COMMAND),
                  "> 2 COMMAND cannot be here due ANSWER: the card's answer, or a silence without payload",
                  f"differs kind: ANSWER was due, COMMAND stood there. {source} meaning")
        wrong = changed("approved-offline", 2, SILENCE, "00")
        self.marks(wrong, "00", "^^")
        self.told(wrong, f"""> 2 SILENCE cannot be here due ANSWER: the card's answer, or a silence without payload
            stood there SILENCE: with a payload of 1 byte 00 ^^
            differs length: a silence of 1 byte stood there; a silence has none. {source}""")

    def test_another_kind_with_the_very_bytes(self):
        self.told(changed("approved-offline", 1, kind=ANSWER),
                  f"differs kind: COMMAND was due, ANSWER stood there with the very bytes that were due. {COMMANDS}")

    def test_behind_the_end(self):
        source = "00, demand 3: a finished session is never the beginning of a longer one"
        self.told(tape([*entries("approved-offline"), (DECISION, bytes.fromhex("010080000000002800"))]), f"""
            > 12 DECISION cannot be here due NOTHING: the session was over stood there DECISION: approved, TVR 8000000000, TSI 2800
            01 00 80 00 00 00 00 28 00 differs kind: nothing was due, DECISION stood there. {source}
            ended the session was over with the DECISION at entry 11
            meaning a session can begin with the entries before this one, and none goes on with it. 00, demand 3""")
        self.told(tape([*entries("silent-card"), (ANSWER, b"\x90\x00")]), "> 9 ANSWER cannot be here due NOTHING: the session was over",
                  "ended the session was over with the SILENCE at entry 8")


class Words(Explaining):
    """START, HOST and RESULTS: which test fails, at which offset."""

    def started(self, place, digits, *expected):
        start = bytearray(entries("approved-offline")[0][1])
        start[place:place + len(digits) // 2] = bytes.fromhex(digits)
        said = joined("\n".join(self.said(tape([(START, bytes(start)), *entries("approved-offline")[1:]]))))
        front = "t.tape: FAIL at entry 0 > 0 START cannot be here due START: valid terminal data stood there START: "
        self.assertTrue(said.startswith(front), said)
        told, _, meaning = said.partition(" meaning ")
        self.assertEqual(told.split(" differs ")[1:], [joined(line) for line in expected])
        self.assertTrue(meaning.startswith("no session begins with this entry. 00, demand 3 note "))

    def test_start(self):
        """Each test that 01 names, and the day of R-5."""
        self.started(0, "03", f"offset 0: type 3 is none of 0 to 2. {TERMINAL}")
        self.started(1, "0A", f"offset 1: '0A' in the amount is not two decimal digits. {TERMINAL}")
        self.started(12, "F0", f"offset 12: 'F0' in the other amount is not two decimal digits. {TERMINAL}")
        self.started(20, "A0", f"offset 20: 'A0' in the transaction type is not two decimal digits. {TERMINAL}")
        self.started(18, "13", f"offset 18: month 13 is none of 01 to 12. {TERMINAL}")
        self.started(19, "00", f"offset 19: day 00 is none of 01 to 31. {TERMINAL}")
        self.started(18, "0230", f"offset 19: 2026-02 has no day 30. {TERMINAL}; 02, R-5")
        self.started(17, "500229", f"offset 19: 1950-02 has no day 29. {TERMINAL}; 02, R-5")
        self.started(31, "00", f"offset 31: random number 0 is none of 1 to 99. {TERMINAL}")
        self.started(31, "64", f"offset 31: random number 100 is none of 1 to 99. {TERMINAL}")
        self.started(32, "29", f"offset 32: target percentage 41 is above the maximum, 40. {TERMINAL}")
        self.started(39, "64", f"offset 39: maximum target percentage 100 is above 99. {TERMINAL}")
        self.started(33, "000000010000",
                     f"offset 33: threshold 000000010000 is neither zero nor below the floor limit 000000010000. {TERMINAL}")
        self.started(57, "04", f"offset 57: AID length 4 is none of 5 to 16. {TERMINAL}")
        self.started(57, "11", f"offset 57: AID length 17 is none of 5 to 16. {TERMINAL}")
        self.started(73, "01", f"offset 73: '01' behind the AID, where zeros are due. {TERMINAL}")
        self.started(0, "090A", f"offset 0: type 9 is none of 0 to 2. {TERMINAL}",
                     f"offset 1: '0A' in the amount is not two decimal digits. {TERMINAL}")

    def test_a_start_of_another_length(self):
        start = entries("approved-offline")[0][1]
        for data in (start[:73], start[:75], start[:76], start + b"\0", b""):
            self.told(tape([(START, data)]), f"differs length: START has {len(data)} bytes; 74 or 77 are due. {TERMINAL}; 02, R-7")

    def test_a_start_of_74_bytes(self):
        self.told(sample("without-capabilities"), """
            0 START type 2 (both), amount 000000001000, other amount 000000000000, country 0826, currency 0826
            date 260630, transaction type 00, unpredictable number 1A2B3C4D, version 0001
            floor limit 000000010000, threshold 000000005000, random 50, target 10 %, maximum 40 %
            TAC denial 0000000000, online 0000000000, default 0000000000, AID A0000000031010
            1 COMMAND SELECT A0000000031010""", words=("--last", "0"), status=0)

    def test_host(self):
        """The issuer's reply to an ARQC: entry 11."""
        source = f"{FACTS}: 1 approve, 2 decline or 3 unable, and a response code, two zero bytes when unable"
        for payload, said in (("0130", "length: HOST has 2 bytes; 3 are due."), ("", "length: HOST has 0 bytes; 3 are due."),
                              ("01303000", "length: HOST has 4 bytes; 3 are due."), ("043030", "reply, offset 0: 4 is none of 1, 2 and 3."),
                              ("030001", "response code, offset 2: 0001 stands behind 'unable', where zeros are due.")):
            self.told(changed("online-approved", 11, payload=payload),
                      "> 11 HOST cannot be here due HOST: the issuer's reply stood there HOST: no reply that there is",
                      f"differs {said} {source}")
        self.told(changed("online-approved", 11, COMMAND, "00"),
                  f"differs kind: HOST was due, COMMAND stood there. {FACTS}: an ARQC waits for the issuer's reply")

    def test_results(self):
        """A result for each of the two rules of 8E: entry 7."""
        source = "02, R-7: a byte from 0 to 4 for each rule of 8E"
        self.told(changed("offline-pin", 7, payload="01"), f"""
            > 7 RESULTS cannot be here due RESULTS: 2 bytes, one for each rule of 8E stood there RESULTS: succeeded 01
            differs length: 1 result stood there; 2 are due, one for each rule of 8E. {source}""")
        wrong = changed("offline-pin", 7, payload="0105")
        self.marks(wrong, "01 05", "   ^^")
        self.told(wrong, "stood there RESULTS: succeeded, 5 (no result)", f"differs result 2, offset 1: 5 is none of 0 to 4. {source}")
        self.told(changed("offline-pin", 7, HOST, "013030"), """differs kind: RESULTS was due, HOST stood there. 02, R-7: due after the last
            record, where the card supports verification and told 8E""")

    def test_verification_in_words(self):
        """The PIN's tries are used up, the signature fails: TVR byte 3 b6 and b8 (02, R-7)."""
        self.assertEqual(entries("verification-failed")[10][1].hex(), "02008000a000006000")
        self.told(changed("verification-failed", 10, payload="020080008000006000"), """
            differs TVR byte 3 b6 'PIN Try Limit exceeded': due and not set. 02, R-7; 003, 7.5
            because TVR byte 3 b6: rule 1 (offline PIN if supported, else the next), result 4 (tries used up): fails; rule 2 (signature
            always), result 0 (failed): fails; no further rule is asked for""")


class Derived(Explaining):
    def test_what_could_not_be_worked_out(self):
        """Where the display does not come to what was due, there is no why, and it is said."""
        from lab.explaining import differences
        from lab.explaining.explained import Walk, derived_of
        from lab.explaining.hiding import Hider
        from lab.kinds import name_of
        hider = Hider([], True)
        made = [(name_of(kind), payload) for kind, payload in entries("approved-offline")[:9]]
        right = entries("approved-offline")[9][1]
        self.assertIsNotNone(derived_of(Walk(made, 2, hider), {"kind": "COMMAND", "bytes": right.hex()})[0])
        due = {"kind": "COMMAND", "bytes": (right[:2] + b"\x80" + right[3:]).hex()}
        derived, said = derived_of(Walk(made, 2, hider), due)
        self.assertIsNone(derived)
        self.assertIn("what was due could not be worked out here", said)
        found = differences.of_entry(due, "COMMAND", right[:-2] + b"\xFF\x00", Walk(made, 2, hider).learnt, None, hider)
        self.assertEqual([one.part for one in found], ["P1", f"byte {len(right) - 2}"])

    def test_every_byte_of_every_command_and_decision(self):
        """Each byte of each command and decision of some samples, changed by itself: the tape fails there, the mark stands under that byte
        and no other, and the difference has a name."""
        from lab import judging, programs, recovery
        from lab.explaining.explained import explain
        words, left = programs.ready(judging.PROGRAM, recovery.PROGRAM)
        judge, tried, chance = judging.Judge(words, with_due=True), 0, random.Random(40)
        self.addCleanup(judge.close)
        for name in ("asked-for-more", "online-pin", "verification-failed", "without-capabilities", "terminated", "unable"):
            made = entries(name)
            places = [(k, at) for k, (kind, payload) in enumerate(made) if kind in (COMMAND, DECISION) for at in range(len(payload))]
            for index, place in places:
                kind, payload = made[index]
                wrong = payload[:place] + bytes((payload[place] ^ 1 << chance.randrange(8),)) + payload[place + 1:]
                path = self.tape("t.tape", tape([*made[:index], (kind, wrong), *made[index + 1:]]))
                judged = judge.judge(path, None, None)
                found = explain(judge, judged, left, 2, False)
                self.assertEqual((judged.finding.verdict, judged.finding.place), ("FAIL", index))
                self.assertEqual({at for one in found.differs for at in one.stood}, {place}, (name, index))
                self.assertFalse([one for one in found.differs if one.part.startswith("byte ")])
                self.assertIsNone(found.underived)
                tried += 1
        self.assertGreater(tried, 400)
