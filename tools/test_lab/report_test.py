"""bin/report: nothing that a line says gets lost, and nothing that is no line is taken for one."""
import hashlib
import html.parser
import json
import os
import re
import resource
import time

from lab.verdicts import line_of
from trying import FAIL, INCONCLUSIVE, PASS, ROOT, SAMPLES, UNREADABLE, Trial, closed, limited

MANY = 200000
TAGS = {"html", "head", "meta", "title", "style", "body", "svg", "defs", "pattern", "path", "circle", "rect", "h1", "h2", "p", "div", "b",
        "span", "small", "br", "table", "thead", "tbody", "tr", "th", "td", "details", "summary", "ul", "li", "i", "code", "mark"}
SELECT = "00A4040007A000000003101000"
DUE = {"kind": "COMMAND", "bytes": SELECT}
STOOD = {"kind": "COMMAND", "bytes": SELECT[:-4] + "1100"}


def finding(name, verdict="PASS", /, **more):
    """A line as bin/judge writes it."""
    data = os.fsencode(name)
    made = {"tape": data.decode("utf-8", "backslashreplace"), "number": None, "session": 7, "bytes": 6144,
            "sha256": hashlib.sha256(data).hexdigest(), "verdict": verdict, "place": 12, "code": 0, "zeros": 0,
            "judge": "0123456789ab 89abcdef01234567"}
    if verdict == "FAIL":
        made.update(place=1, due=DUE, stood=STOOD, pan="masked")
    elif verdict == "INCONCLUSIVE":
        made.update(place=8, due={"kind": "ANSWER"})
    elif verdict == "UNREADABLE":
        made.update(place=4, code=3, session=None)
    elif verdict == "ERROR":
        made.update(place=None, code=None, zeros=None, bytes=None, sha256=None, session=None, error="cannot be opened: gone")
    try:
        data.decode()
    except UnicodeDecodeError:
        made["tape_hex"] = data.hex()
    made.update(more)
    return {key: value for key, value in made.items() if value != "LEFT OUT"}


class Page(html.parser.HTMLParser):
    """What a report holds: its tags, their attributes, its text."""

    def __init__(self, data):
        super().__init__()
        self.tags, self.attributes, self.text, self.open = set(), [], "", []
        self.feed(data.decode())

    def handle_starttag(self, tag, attributes):
        self.handle_startendtag(tag, attributes)
        if tag not in ("meta", "br"):
            self.open.append(tag)

    def handle_startendtag(self, tag, attributes):
        self.tags.add(tag)
        self.attributes += [(tag, *one) for one in attributes]

    def handle_endtag(self, tag):
        if self.open.pop() != tag:
            raise ValueError(f"{tag} ends where it is not open")

    def handle_data(self, data):
        self.text += data if self.lasttag != "style" else ""


class ReportTrial(Trial):
    def list(self, *findings, name="night.jsonl", end=b"\n"):
        rows = [json.dumps(one, separators=(",", ":")).encode() if isinstance(one, dict) else one for one in findings]
        (self.folder / name).write_bytes(b"\n".join(rows) + end)

    def report(self, status, *findings, words=(), **more):
        """The report of some lines."""
        self.list(*findings)
        done = self.check(self.bin("report", *words, "night.jsonl", "night.html"), status, **more)
        return self.page(), done

    def page(self, name="night.html"):
        data = (self.folder / name).read_bytes()
        page = Page(data)
        self.assertLessEqual(page.tags, TAGS)
        self.assertEqual(page.open, [])
        for tag, name, value in page.attributes:
            self.assertFalse(name.startswith("on") or name in ("src", "href", "srcset", "style", "action"), (tag, name, value))
        self.assertNotIn(b"<script", data.lower())
        self.assertEqual(set(re.findall(rb"url\([^)]*\)", data)), {b"url(#stripes)", b"url(#dots)"})
        self.assertNotIn(b"@import", data)
        self.assertNotRegex(data, rb"https?:|//[a-z]")
        return page


class Reports(ReportTrial):
    def test_real_tapes(self):
        for name, source in (("a/t-1.tape", PASS), ("a/t-2.tape", FAIL), ("b/t-1.tape", INCONCLUSIVE), ("b/t-2.tape", UNREADABLE)):
            self.tape(name, source)
        self.check(self.bin("judge", "--jsonl", "night.jsonl", "a", "b"), 1)
        done = self.bin("report", "--title", "A night", "night.jsonl", "night.html")
        self.check(done, 1, out="PASS 1 FAIL 1 INCONCLUSIVE 1 UNREADABLE 1 TOTAL 4: night.html\n")
        text = self.page().text
        data = (self.folder / "night.jsonl").read_bytes()
        for words in ("A night", "4 tapes of 2 terminals", "2 tapes are evidence for nothing.", "absence of failure shall not be evidence",
                      "START was due, START with bytes that cannot be stood there", "waiting for the card's answer",
                      "code 3: a block fails its check (CRC-32)", hashlib.sha256(data).hexdigest(),
                      json.loads(data.split(b"\n")[0])["judge"]):
            self.assertIn(words, text)
        self.assertEqual(text.count("no evidence of any kind"), 1)

    def test_all_samples(self):
        self.check(self.bin("judge", "--jsonl", "night.jsonl", "--samples"), 1)
        self.check(self.bin("report", "night.jsonl", "night.html"), 1, out=f"TOTAL {len(list(SAMPLES.glob('*.tape')))}: ")
        self.assertIn("filled 4 entries of the card's lists with zeros", self.page().text)

    def test_all_pass(self):
        page, _ = self.report(0, finding("a/1.tape"), finding("a/2.tape"))
        for words in ("evidence for nothing.", "could not be judged", "Failures", "Unfinished", "Damaged"):
            self.assertNotIn(words, page.text)

    def test_each_verdict_alone_is_not_all_pass(self):
        for verdict, box in (("FAIL", False), ("INCONCLUSIVE", True), ("UNREADABLE", True)):
            page, _ = self.report(1, finding("a/1.tape"), finding("a/2.tape", verdict))
            self.assertEqual("1 tape is evidence for nothing." in page.text, box, verdict)

    def test_the_same_list_gives_the_same_report(self):
        self.report(1, *[finding(f"{k % 7}/t-{k}.tape", ("PASS", "FAIL", "UNREADABLE")[k % 3], number=k) for k in range(100)])
        first = (self.folder / "night.html").read_bytes()
        self.check(self.bin("report", "night.jsonl", "night.html"), 1)
        self.assertEqual((self.folder / "night.html").read_bytes(), first)

    def test_terminals_by_folder_and_by_name(self):
        lines = [finding("/d/n/aster T4/aster-T4-000417.tape", "PASS", number=417), finding("/d/n/dune/dune-M1_3.tape", "FAIL", number=3),
                 finding("/d/n/dune/dune-M1_2.tape", "PASS", number=2), finding("/d/n/kiosk/5.tape", "INCONCLUSIVE", number=5)]
        text = self.report(1, *lines)[0].text
        self.assertLess(text.index("dune"), text.index("kiosk"))
        self.assertLess(text.index("kiosk"), text.index("aster T4"))
        self.assertIn("/d/n, 3 folders below it", text)
        text = self.report(1, *lines, words=("--by", "name"))[0].text
        for words in ("dune-M1", "aster-T4", "(no name)"):
            self.assertIn(words, text)
        self.check(self.bin("report", "--by", "colour", "night.jsonl", "other.html"), 2, err="folder or by name")
        self.assertFalse((self.folder / "other.html").exists())

    def test_strips_show_every_tape_in_order(self):
        lines = [finding(f"t/{k}.tape", "FAIL" if k in (3, 4, 50) else "UNREADABLE" if k == 7 else "PASS", number=k) for k in range(60)]
        self.report(1, *reversed(lines))
        data = (self.folder / "night.html").read_text()
        self.assertIn('viewBox="0 0 60 36"', data)
        self.assertIn('<path class="FAIL" d="M3 15v-14h2v14zM50 15v-14h1v14z"/>', data)
        self.assertIn('<path class="UNREADABLE" d="M7 35v-9h1v9z"/>', data)

    def test_books(self):
        self.list(finding("a/1.tape"))
        book = SAMPLES / "campaign.book"
        self.check(self.bin("report", "--books", book, "night.jsonl", "night.html"), 0)
        self.assertIn(hashlib.sha256(book.read_bytes()).hexdigest(), self.page().text)
        self.tape("no.book", b"no book")
        self.check(self.bin("report", "--books", "no.book", "night.jsonl", "other.html"), 2, err="no.book")
        self.check(self.bin("report", "--books", ".", "night.jsonl", "other.html"), 2, err="no book in this folder")
        self.assertFalse((self.folder / "other.html").exists())


class Lines(ReportTrial):
    def refused(self, count, *findings, end=b"\n"):
        self.list(*findings, end=end)
        self.check(self.bin("report", "night.jsonl", "night.html"), 2, err=f"night.jsonl: line {count} is not a finding", no_out="PASS")
        self.assertEqual(sorted(path.name for path in self.folder.iterdir()), ["night.jsonl"])

    def test_a_line_that_is_cut(self):
        whole = json.dumps(finding("a/2.tape"))
        for cut in (1, 40, len(whole) - 1, len(whole)):
            self.refused(2, finding("a/1.tape"), whole[:cut].encode(), end=b"")

    def test_a_cut_line_in_the_middle(self):
        self.refused(1, json.dumps(finding("a/1.tape"))[:90].encode(), finding("a/2.tape"))
        self.refused(2, finding("a/1.tape"), json.dumps(finding("a/2.tape"))[:90].encode() + json.dumps(finding("a/3.tape")).encode())

    def test_lines_that_are_none(self):
        good = json.dumps(finding("a/2.tape")).encode()
        for row in (b"", b"Hello", b"[1]", b"null", b"{}", b'{"tape":1}', b"\xff\xfe", "é".encode("utf-16"), b"[" * 100000, b"\0",
                    good + b" x", good.replace(b'"place": 12', b'"place": NaN'), good.replace(b"{", b'{"verdict":"PASS",'),
                    b"\xef\xbb\xbf" + good):
            self.refused(2, finding("a/1.tape"), row)

    def test_members_that_are_not_of_the_form(self):
        wrong = [("PASS", dict(verdict="pass")), ("PASS", dict(verdict="OK")), ("PASS", dict(verdict=None)),
                 ("PASS", dict(verdict=["PASS"])), ("PASS", dict(place=-1)), ("PASS", dict(place="12")), ("PASS", dict(place=1.0)),
                 ("PASS", dict(place=True)),
                 ("PASS", dict(place=2 ** 64)), ("PASS", dict(place=None)), ("PASS", dict(code=3)), ("PASS", dict(zeros=None)),
                 ("PASS", dict(number=2 ** 32)), ("PASS", dict(number="7")), ("PASS", dict(session=-1)), ("PASS", dict(bytes=None)),
                 ("PASS", dict(sha256=None)), ("PASS", dict(sha256="0" * 63)), ("PASS", dict(sha256="A" * 64)), ("PASS", dict(judge="")),
                 ("PASS", dict(judge=None)), ("PASS", dict(tape=None)), ("PASS", dict(tape="\ud800")), ("PASS", dict(tape_hex="61")),
                 ("PASS", dict(tape_hex="")), ("PASS", dict(tape_hex=5)), ("PASS", dict(due={"kind": "ANSWER"})), ("PASS", dict(error="x")),
                 ("PASS", dict(other=1)), ("UNREADABLE", dict(code=0)), ("UNREADABLE", dict(code=10)), ("UNREADABLE", dict(zeros=1)),
                 ("FAIL", dict(due="LEFT OUT")), ("FAIL", dict(stood="LEFT OUT")), ("FAIL", dict(due={"kind": "COMMAND"})),
                 ("FAIL", dict(due={"kind": "SONG"})), ("FAIL", dict(due={"kind": "ANSWER", "bytes": "00"})), ("FAIL", dict(due=[])),
                 ("FAIL", dict(due={"kind": "COMMAND", "bytes": "0"})), ("FAIL", dict(due={"kind": "COMMAND", "bytes": "zz"})),
                 ("FAIL", dict(due={"kind": "RESULTS", "bytes": "00"})), ("FAIL", dict(stood={"kind": "COMMAND"})),
                 ("FAIL", dict(stood={"kind": "kind x", "bytes": ""})), ("FAIL", dict(stood={"kind": "COMMAND", "bytes": None})),
                 ("FAIL", dict(pan="hidden")), ("FAIL", dict(pan=None)), ("FAIL", dict(pan=["masked"])), ("PASS", dict(pan="masked")),
                 ("FAIL", dict(pan="whole", due={"kind": "COMMAND", "bytes": "0*"})), ("INCONCLUSIVE", dict(pan="whole")),
                 ("FAIL", dict(pan="LEFT OUT", stood={"kind": "COMMAND", "bytes": "**"})), ("ERROR", dict(pan="masked")),
                 ("FAIL", dict(due={"kind": "COMMAND", "bytes": "***"})), ("FAIL", dict(due={"kind": "COMMAND", "bytes": "*x"})),
                 ("INCONCLUSIVE", dict(stood=STOOD)), ("INCONCLUSIVE", dict(due="LEFT OUT")), ("ERROR", dict(error="")),
                 ("ERROR", dict(error="LEFT OUT")), ("ERROR", dict(place=0)), ("ERROR", dict(due={"kind": "ANSWER"}))]
        wrong = [finding("a/2.tape", verdict, **changed) for verdict, changed in wrong]
        wrong += [finding("a/2.tape", **{member: "LEFT OUT"}) for member in finding("a/2.tape")]
        for one in wrong:
            with self.subTest(one=one), self.assertRaises(ValueError):
                line_of(json.dumps(one).encode() + b"\n")
        self.refused(2, finding("a/1.tape"), wrong[0])
        for masked, stars in (("masked", "00**"), ("whole", "0000"), ("LEFT OUT", "0000")):
            told = finding("a", "FAIL", pan=masked, due={"kind": "COMMAND", "bytes": stars})
            self.assertEqual(line_of(json.dumps(told).encode() + b"\n").masked, masked == "masked")
        for verdict in ("PASS", "FAIL", "INCONCLUSIVE", "UNREADABLE", "ERROR"):
            self.assertEqual(line_of(json.dumps(finding(b"a\xff", verdict)).encode() + b"\n")[:2], (b"a\xff", None))

    def test_nothing_in_it(self):
        self.list(end=b"")
        self.check(self.bin("report", "night.jsonl", "night.html"), 2, err="no line in it")
        self.assertFalse((self.folder / "night.html").exists())


class NothingVanishes(ReportTrial):
    def test_a_file_that_changed_does_not_take_its_failure_along(self):
        page, done = self.report(1, finding("a/1.tape", "FAIL"), finding("a/1.tape", sha256="0" * 64))
        self.assertIn(b"PASS 1 FAIL 1 ", done.out)
        self.assertIn("had other bytes when the file was judged again", page.text)

    def test_the_same_bytes_judged_differently(self):
        for lines in ((finding("a/1.tape", "FAIL"), finding("a/1.tape")), (finding("a/1.tape"), finding("a/1.tape", "FAIL")),
                      (finding("a/1.tape"), finding("a/1.tape", "FAIL"), finding("a/1.tape", judge="another"))):
            page, done = self.report(2, *lines, err="1 judged differently")
            self.assertIn(b"PASS 0 FAIL 1 ", done.out)
            self.assertIn("The same bytes were judged differently", page.text)

    def test_the_same_said_twice_is_one_tape(self):
        page, done = self.report(1, finding("a/1.tape", "FAIL"), finding("a/1.tape", "FAIL", judge="another judge"))
        self.assertIn(b"FAIL 1 INCONCLUSIVE 0 UNREADABLE 0 TOTAL 1", done.out)
        self.assertIn("another judge", page.text)

    def test_copies_are_said(self):
        page, _ = self.report(0, finding("a/1.tape"), finding("b/1.tape", sha256=finding("a/1.tape")["sha256"]))
        self.assertIn("1 tape has the very bytes of another tape", page.text)

    def test_tapes_that_could_not_be_judged(self):
        page, done = self.report(2, finding("a/1.tape"), finding("b/2.tape", "ERROR"), err="1 not judged")
        for words in ("1 time a tape could not be judged.", "b/2.tape: cannot be opened: gone", "not judged"):
            self.assertIn(words, page.text)
        page, _ = self.report(2, finding("b/2.tape", "ERROR"))
        self.assertIn("b/2.tape: cannot be opened: gone", page.text)

    def test_tapes_that_are_not_in_the_list(self):
        lines = (finding("a/1.tape"), finding("a/2.tape"), finding("a/2.tape", sha256="0" * 64))
        page, _ = self.report(0, *lines, words=("--tapes", "2"))
        self.assertNotIn("There must be", page.text)
        page, _ = self.report(2, *lines, words=("--tapes", "5"), err="2 of 5 tapes in the list")
        self.assertIn("3 tapes of 5 not in this list.", page.text)
        page, _ = self.report(2, *lines, words=("--tapes", "1"))
        self.assertIn("1 tape too many.", page.text)
        for number in ("x", "", "-1", "4294967296"):
            self.check(self.bin("report", "--tapes", number, "night.jsonl", "other.html"), 2, err="--tapes: ")

    def test_an_error_is_settled_by_a_later_line_alone(self):
        page, _ = self.report(0, finding("a/1.tape", "ERROR"), finding("a/1.tape"))
        self.assertIn("1 of them came to a verdict", page.text)
        page, _ = self.report(2, finding("a/1.tape"), finding("a/1.tape", "ERROR"))
        self.assertIn("no verdict is known", page.text)

    def test_one_failure_among_many_is_marked(self):
        for count in (601, 5000):
            lines = [finding(f"t/{k}.tape", "FAIL" if k == count - 7 else "PASS", number=k) for k in range(count)]
            self.report(1, *lines)
            self.assertRegex((self.folder / "night.html").read_text(), r'<path class="FAIL" d="M[0-9]+ 15v-\d+h1')


class FromOutside(ReportTrial):
    NAMES = [b"<script>alert(1)</script>.tape", b"\"><img src=x onerror=alert(1)>.tape", b"a&b&lt;.tape", b"line\nfeed.tape",
             b"nul\\x00.tape", b"not utf-8 \xff\xfe.tape", "\u202egnp.tape".encode(), "日本 ä.tape".encode(),
             b"\x1b[31mred.tape", b"'quoted' `x`.tape",
             b"<!-- -->.tape", b"]]>.tape", b"</style><b>.tape", b"x" * 255, b"javascript:alert(1).tape"]

    def test_names_of_every_kind(self):
        for verdict in ("PASS", "FAIL", "INCONCLUSIVE", "UNREADABLE", "ERROR"):
            lines = [finding(b"d" + name + b"/" + name, verdict) for name in self.NAMES]
            page, _ = self.report({"PASS": 0, "ERROR": 2}.get(verdict, 1), *lines)
            if verdict in ("FAIL", "ERROR"):
                for words in ("<script>alert(1)</script>.tape", "line\\x0afeed.tape", "not utf-8 \\xff\\xfe.tape", "\\u202egnp.tape",
                              "日本 ä.tape"):
                    self.assertIn(words, page.text)

    def test_real_tapes_of_such_names(self):
        for name in self.NAMES[:-2]:
            if b"/" not in name:
                self.tape(name, FAIL)
        self.check(self.bin("judge", "--jsonl", "night.jsonl", "."), 1)
        self.check(self.bin("report", "night.jsonl", "night.html"), 1)
        self.assertIn("not utf-8 \\xff\\xfe.tape", self.page().text)

    def test_other_words(self):
        evil = "<script>x</script>\"'&\u202e"
        page, _ = self.report(2, finding("a/1.tape", judge=evil), finding("a/2.tape", "ERROR", error=evil), words=("--title", evil))
        self.assertEqual(page.text.count("<script>x</script>"), 4)


class Files(ReportTrial):
    def test_what_stands_there_is_left_alone(self):
        self.list(finding("a/1.tape"))
        self.tape("notes", b"my notes")
        for out in ("notes", "night.jsonl", "."):
            self.check(self.bin("report", "night.jsonl", out), 2, err=f"{out}: ")
        self.assertEqual((self.folder / "notes").read_bytes(), b"my notes")
        os.link(self.folder / "night.jsonl", self.folder / "link")
        self.check(self.bin("report", "night.jsonl", "link"), 2, err="list of findings itself")
        self.check(self.bin("report", "new.html", "night.jsonl"), 2)
        self.assertIn(b"a/1.tape", (self.folder / "night.jsonl").read_bytes())

    def test_an_old_report_does_not_stay_for_a_list_that_is_none(self):
        self.report(0, finding("a/1.tape"))
        self.list(finding("a/1.tape"), b"cut")
        self.check(self.bin("report", "night.jsonl", "night.html"), 2, err="line 2")
        self.assertFalse((self.folder / "night.html").exists())

    def test_a_list_that_is_not_there(self):
        self.report(0, finding("a/1.tape"))
        self.check(self.bin("report", "missing.jsonl", "night.html"), 2, err="missing.jsonl")
        self.assertTrue((self.folder / "night.html").exists())
        os.mkfifo(self.folder / "pipe")
        self.check(self.bin("report", "pipe", "other.html", seconds=30), 2, err="named pipe")
        for words in ((), ("night.jsonl",), ("night.jsonl", "a.html", "b.html"), ("--what", "night.jsonl", "a.html")):
            self.check(self.bin("report", *words), 2)

    def test_a_full_disk(self):
        self.list(finding("a/1.tape", "FAIL"))
        self.check(self.bin("report", "night.jsonl", "night.html", preexec_fn=limited(1000)), 2, err="File too large", no_out="PASS")
        self.assertEqual([path.name for path in self.folder.iterdir()], ["night.jsonl"])
        for out in ("/dev/full", "no/such/folder.html"):
            self.check(self.bin("report", "night.jsonl", out), 2, no_out="PASS")

    def test_standard_output_that_is_closed(self):
        self.list(finding("a/1.tape"))
        self.check(self.bin("report", "night.jsonl", "night.html", stdout=None, preexec_fn=closed(1)), 2, err="standard output")
        with open("/dev/full", "wb") as full:
            self.check(self.bin("report", "night.jsonl", "night.html", stdout=full), 2, err="standard output")


class Many(ReportTrial):
    """200,000 tapes: under 2 MB whatever they are, and a night of them, counted in the processor's time, under 10 s."""

    def timed(self, rows, seconds):
        with open(self.folder / "night.jsonl", "wb") as file:
            for row in rows:
                file.write(json.dumps(row, separators=(",", ":")).encode() + b"\n")
        before, began = resource.getrusage(resource.RUSAGE_CHILDREN), time.monotonic()
        self.check(self.bin("report", "night.jsonl", "night.html"), 1, out=f"TOTAL {MANY}: ")
        after = resource.getrusage(resource.RUSAGE_CHILDREN)
        took = after.ru_utime + after.ru_stime - before.ru_utime - before.ru_stime
        size = (self.folder / "night.html").stat().st_size
        print(f"{size:,} bytes, {took:.1f} s of the processor's time, {time.monotonic() - began:.1f} s by the clock", flush=True)
        self.assertLess(size, 2_000_000)
        self.assertLess(took, seconds)

    def test_a_night(self):
        """Twelve terminals, one tape in twenty not PASS."""
        verdicts = ["PASS"] * 95 + ["FAIL"] * 2 + ["INCONCLUSIVE"] * 2 + ["UNREADABLE"]
        self.timed((finding(f"/data/night/terminal-{k % 12}/t-{k:06d}.tape", verdicts[k * 7919 % 100], number=k) for k in range(MANY)), 10)

    def test_the_worst_night(self):
        """Each tape fails, each in a folder of its own, with long names and many causes."""
        long = {"kind": "COMMAND", "bytes": "80AE" + "AB" * 257}
        self.timed((finding(f"/data/{k:06d}{'<' * 60}/{'&' * 200}-{k}.tape", "FAIL", number=k, due=long,
                            stood={"kind": "DECISION", "bytes": f"03{k % 256:02X}" + "00" * 7}) for k in range(MANY)), 30)


class Installed(Trial):
    def test_the_page_names_its_picture(self):
        self.assertIn("docs/report.png", (ROOT / "README.md").read_text())
        self.assertLess((ROOT / "docs/report.png").stat().st_size, 150_000)
