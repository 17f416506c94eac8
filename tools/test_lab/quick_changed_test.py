"""tools/quick-changed: that its tapes are changed and sealed, and that a judge which lies, ends or says something else is found out."""
import random
import re
import shutil
import subprocess
import sys
import zlib

from trying import BLOCK, PASS, ROOT, SAMPLES, Trial, program

sys.path.insert(0, str(ROOT / "tools"))
import object_changes  # noqa: E402
import tape_changes  # noqa: E402

TOOL = ROOT / "tools/quick-changed"
TRIED = 4000
# A program in the place of lab_tapes: it has the real one answer, and does something to the lines.
LIAR = """#!{python}
import subprocess, sys
lines = subprocess.run({words!r}, input=sys.stdin.buffer.read(), stdout=subprocess.PIPE).stdout.splitlines(keepends=True)
{deed}
sys.stdout.buffer.write(b"".join(lines))
"""
LIE = """
for at in {at}:
    words = lines[at].split()
    words[{column}] = (b"FAIL" if words[0] == b"PASS" else b"PASS") if {column} == 0 else b"%d" % (int(words[{column}]) + 1)
    lines[at] = b" ".join(words) + b"\\n"
"""


def whole(tape):
    """Blocks whose checks all hold."""
    return len(tape) % BLOCK == 0 and all(zlib.crc32(tape[at:at + 508]) == int.from_bytes(tape[at + 508:at + BLOCK], "big")
                                          for at in range(0, len(tape), BLOCK))


# The samples that end with a decision, and the answers in them.
GOOD = [tape for tape in (path.read_bytes() for path in sorted(SAMPLES.glob("*.tape")))
        if whole(tape) and tape[-BLOCK + 8] == tape_changes.DECISION]
ANSWERS = [tape_changes.payload_of(body) for tape in GOOD for body in tape_changes.bodies_of(tape) if body[8] == tape_changes.ANSWER]


class Changes(Trial):
    def test_every_change_is_made_and_sealed(self):
        seen, unsealed = set(), 0
        for number in range(TRIED):
            chance = random.Random(number)
            tape = chance.choice(GOOD)
            made, names = tape_changes.changed(chance, tape, GOOD)
            self.assertNotEqual(made, tape)
            seen.update(names)
            if "unsealed" in names:
                unsealed += 1
            else:
                self.assertTrue(whole(made), (number, names))
        self.assertEqual(seen, {change.__name__ for change in tape_changes.CHANGES} | {"unsealed"})
        self.assertTrue(0 < unsealed < TRIED // 8, unsealed)

    def test_every_change_of_tape_or_answer_can_change_it(self):
        for change in set(tape_changes.CHANGES):
            bodies = tape_changes.bodies_of(GOOD[0])
            for number in range(50):
                change(random.Random(number), bodies, GOOD)
                if tape_changes.sealed(bodies) != GOOD[0]:
                    break
            self.assertNotEqual(tape_changes.sealed(bodies), GOOD[0], change)
        self.assertEqual({name for number in range(TRIED) for made, name in [self.other_answer(number)] if made},
                         {change.__name__ for change in object_changes.CHANGES} | {"other_status", "other_size", "other_bytes"})

    def other_answer(self, number):
        chance = random.Random(number)
        answer = chance.choice(ANSWERS)
        made, name = object_changes.other_answer(chance, answer)
        return made != answer, name

    def test_the_limits_are_met_and_passed(self):
        """The longest tape and the most records (02, R-8), from both sides, and too long a tape that is not of whole blocks."""
        most, sizes, records = 1024 * BLOCK, set(), set()
        for number in range(TRIED):
            sizes.add(len(tape_changes.unsealed(random.Random(number), GOOD[0])))
            node = object_changes.Node(b"\x94")
            object_changes.other_locator(random.Random(number), [node], [node])
            records.add(sum(node.value[at + 2] - node.value[at + 1] + 1 for at in range(0, len(node.value), 4)))
        self.assertTrue({most, most + 1, most + 512} <= sizes, max(sizes))
        self.assertTrue({500, 501} <= records, records)

    def test_objects_are_written_as_they_were_read(self):
        for answer in ANSWERS:
            self.assertEqual(object_changes.written(object_changes.nodes_of(answer[:-2])), answer[:-2])
        for wrong in ("5A0212", "5A", "9F", "5A80", "5A830000015A", "70035A0212"):
            self.assertIsNone(object_changes.nodes_of(bytes.fromhex(wrong)), wrong)

    def test_a_changed_answer_has_each_reason_behind_it(self):
        for number in range(200):
            chance = random.Random(number)
            tape = chance.choice(GOOD)
            made, _ = tape_changes.reasoned(chance, tape)
            self.assertEqual([tape_changes.payload_of(one[-BLOCK:])[:2] for one in made], [bytes([3, reason]) for reason in range(1, 13)])
            self.assertEqual({one[:-BLOCK] for one in made}, {made[0][:-BLOCK]})
            self.assertNotEqual(made[0][:-BLOCK], tape[:len(made[0]) - BLOCK])
            for one in made:
                self.assertTrue(whole(one))
                self.assertEqual(one[-BLOCK:-BLOCK + 8], (len(one) // BLOCK - 1).to_bytes(4, "big") + tape[4:8])

    def test_tvr_and_tsi_are_those_reached(self):
        bodies = tape_changes.bodies_of(PASS.read_bytes())
        own, request = tape_changes.payload_of(bodies[-1])[2:], tape_changes.first_request(bodies)
        before = own[:5] + bytes([own[5] & 0xDF]) + own[6:]
        self.assertNotEqual(own, before)
        for at, reason, due in ((2, 9, bytes(7)), (request - 1, 8, bytes(7)), (request - 1, 9, before), (request + 1, 5, before),
                                (request + 1, 9, own)):
            self.assertEqual(tape_changes.reached_at(bodies, at, reason), due, (at, reason))


class Judged(Trial):
    def setUp(self):
        super().setUp()
        if shutil.which("cargo") is None and not (ROOT / "reference/target/release/reference").exists():
            self.skipTest("cargo is not here, and the reference is not built")

    def run_tool(self, *words):
        return subprocess.run([TOOL, "--keep", self.folder / "kept", *words], cwd=self.folder, capture_output=True, text=True, timeout=300)

    def with_deed(self, deed, seed="3", count="40"):
        liar = self.folder / "liar"
        liar.write_text(LIAR.format(python=sys.executable, words=program("lab_tapes"), deed=deed))
        liar.chmod(0o755)
        return self.run_tool("--judge", liar, seed, count)

    def test_the_judges_say_the_same(self):
        done = self.run_tool("3", "400")
        self.assertEqual((done.returncode, done.stderr), (0, ""), done)
        lines = done.stdout.splitlines()
        self.assertEqual([line.split(" tapes: ")[0] for line in lines[:2]], ["changed: 400", "reasons: 800"])
        for line in lines[:2]:
            self.assertEqual(sum(int(number) for number in re.findall(r"[A-Z]+ (\d+)", line)), int(line.split()[1]))
        self.assertRegex(lines[2], r"^codes: .*\b3 \d+.*\b9 \d+$")
        self.assertRegex(lines[3], r"^reasons reached: 1 \d+, 2 \d+, 3 \d+, ")
        self.assertEqual(lines[4:], ["1200 judged, 0 differ"])
        self.assertFalse((self.folder / "kept").exists())
        self.assertEqual(self.run_tool("3", "400").stdout, done.stdout)
        self.assertNotEqual(self.run_tool("4", "400").stdout, done.stdout)

    def test_a_lie_about_one_tape(self):
        kept = set()
        # of the quick judge, of the plain one, of both; in each of the four things said; about a tape of each kind
        for at, column, kind, number in (((14,), 0, "changed", 7), ((15,), 1, "changed", 7), ((14, 15), 2, "changed", 7),
                                         ((2 * 40 + 10,), 3, "reasons", 5)):
            done = self.with_deed(LIE.format(at=at, column=column))
            self.assertEqual(done.returncode, 1, done)
            first, last = done.stdout.splitlines()[0], done.stdout.splitlines()[-1]
            self.assertTrue(first.startswith(f"seed 3, {kind} {number} ("), first)
            self.assertEqual(last, "120 judged, 1 differ")
            kept.add(f"3-{kind}-{number}.tape")
            self.assertEqual({path.name for path in (self.folder / "kept").iterdir()}, kept)
            self.assertIn(str(self.folder / "kept" / f"3-{kind}-{number}.tape"), first)

    def test_the_tape_that_is_kept_is_the_one_judged(self):
        done = self.with_deed(LIE.format(at=(14,), column=3))
        said = re.search("plain ([A-Z]+ .*?), reference", done.stdout)[1]
        kept = self.folder / "kept/3-changed-7.tape"
        judged = subprocess.run(program("lab_tapes"), input=b"PLAIN %b\n" % bytes(kept), capture_output=True).stdout
        self.assertEqual(judged, f"{said} {kept}\n".encode())

    def test_a_program_that_ends(self):
        for deed in ("del lines[9:]", "lines = []", "sys.exit(3)", "import os; os.kill(os.getpid(), 9)"):
            done = self.with_deed(deed)
            self.assertEqual((done.returncode, "judged" in done.stdout), (2, False), (deed, done))
            self.assertIn("liar", done.stderr)
        self.assertEqual(self.run_tool("--judge", self.folder / "none", "3", "40").returncode, 2)

    def test_a_line_that_is_none(self):
        for deed in ("lines[7] = b'ERROR opening 3\\n'", "lines[7] = b'PASS 12 0 3\\n'", "lines[7] = lines[9]",
                     "lines[7] = b'PASS 012 0 0 3\\n'", "lines[-1] = lines[-1][:-1]"):
            done = self.with_deed(deed)
            self.assertEqual((done.returncode, "judged" in done.stdout), (2, False), (deed, done))
            self.assertIn("no line of a judge's", done.stderr)

    def test_nothing_judged(self):
        for words in (("3", "0"), ("3", "-5"), ("3",), ("3", "many")):
            self.assertEqual(self.run_tool(*words).returncode, 2, words)
