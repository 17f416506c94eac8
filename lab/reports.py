"""What is written of judged tapes: lines, JSON Lines, JUnit."""
import json
import os
import re
import stat
import tempfile
from xml.sax.saxutils import escape, quoteattr

from lab.findings import Finding
from lab.words import Undone, shown, signals, text

MEMBERS = ("tape", "number", "session", "bytes", "sha256", "verdict", "place", "code", "zeros", "judge")
NOT_IN_XML = re.compile("[^\t\n\r\x20-\ud7ff\ue000-\ufffd\U00010000-\U0010ffff]")


def line(judged):
    return shown(judged.name) + b" " + judged.finding.line().encode()


def record(judged, judge):
    """A tape as a member of JSON Lines. Where a name is no UTF-8, its bytes stand beside it in hexadecimal; where bytes of an entry are
    told, it is said whether account numbers in them are masked."""
    found = judged.finding
    values = (text(judged.name), judged.number, judged.session, judged.size, judged.sha256, *(found or ("ERROR", None, None, None)), judge)
    made = dict(zip(MEMBERS, values))
    for member in ("due", "stood"):
        if getattr(judged, member) is not None:
            made[member] = getattr(judged, member)
            if "bytes" in made[member]:
                made["pan"] = "masked" if judged.masked else "whole"
    if judged.error:
        made["error"] = judged.error
    try:
        judged.name.decode("utf-8")
    except UnicodeDecodeError:
        made["tape_hex"] = judged.name.hex()
    return made


class JsonLines:
    """A file that grows by whole lines. One that is there is gone on with: a last line that is not whole is cut off, and a tape whose
    line is there with its sha256 and the same judge is not judged again."""

    def __init__(self, name, judge):
        self.name, self.judge, self.known = name, judge, {}
        self.file = os.open(name, os.O_RDWR | os.O_CREAT | os.O_CLOEXEC | os.O_NONBLOCK, 0o666)
        if not stat.S_ISREG(os.fstat(self.file).st_mode):
            raise Undone(f"{text(name)}: is not a file that lines can be kept in")
        with os.fdopen(os.dup(self.file), "rb") as old:
            data = old.read()
        whole = data.rfind(b"\n") + 1
        for count, row in enumerate(data[:whole].splitlines(), 1):
            self.learn(row, count)
        if whole == 0 and data:
            raise Undone(f"{text(name)}: has no line of findings, and is left as it is")
        os.ftruncate(self.file, whole)
        os.lseek(self.file, 0, os.SEEK_END)

    def learn(self, row, count):
        try:
            old = json.loads(row)
            name = bytes.fromhex(old["tape_hex"]) if "tape_hex" in old else old["tape"].encode()
            if not set(MEMBERS) <= set(old):
                raise ValueError
        except (ValueError, TypeError, KeyError, AttributeError):
            raise Undone(f"{text(self.name)}: line {count} is not a finding; the file is left as it is") from None
        if old["judge"] == self.judge and old["verdict"] in ("PASS", "FAIL", "INCONCLUSIVE", "UNREADABLE"):
            self.known[name] = (old["sha256"], Finding(old["verdict"], old["place"], old["code"], old["zeros"]))
        else:
            self.known.pop(name, None)

    def finding(self, judged):
        sha256, found = self.known.get(judged.name, (None, None))
        return found if sha256 is not None and sha256 == judged.sha256 else None

    def add(self, judged):
        if judged.known:
            return
        data = json.dumps(record(judged, self.judge), separators=(",", ":")).encode() + b"\n"
        with signals.held():
            try:
                while data:
                    data = data[os.write(self.file, data):]
            except OSError as error:
                raise Undone(f"{text(self.name)}: {error.strerror}: a line was not written") from None

    def close(self):
        os.fsync(self.file)
        os.close(self.file)


class JUnit:
    """A file for build servers, written at the end and whole. FAIL is a failure; whatever else is not PASS is an error, never skipped."""

    def __init__(self, name):
        self.name, self.cases = name, tempfile.TemporaryFile("w+", encoding="utf-8")
        self.counts = {"tests": 0, "failures": 0, "errors": 0}
        if os.path.lexists(name):
            os.unlink(name)

    def add(self, judged):
        said = judged.error or judged.finding.line()
        verdict = judged.finding.verdict if judged.finding and not judged.error else "ERROR"
        case = f' <testcase classname="judge" name={self.quoted(text(judged.name))}'
        self.counts["tests"] += 1
        if verdict == "PASS":
            self.cases.write(case + "/>\n")
            return
        word, count = ("failure", "failures") if verdict == "FAIL" else ("error", "errors")
        self.counts[count] += 1
        self.cases.write(f"{case}><{word} type={self.quoted(verdict)} message={self.quoted(said)}/></testcase>\n")

    def quoted(self, words):
        return quoteattr(NOT_IN_XML.sub(lambda found: f"\\x{ord(found.group()):02x}", words), {"\n": "&#10;", "\r": "&#13;", "\t": "&#9;"})

    def close(self):
        self.cases.seek(0)
        attributes = " ".join(f'{name}="{number}"' for name, number in self.counts.items())
        folder, base = os.path.split(os.path.abspath(self.name))
        number, temporary = tempfile.mkstemp(prefix=b"." + base + b".", dir=folder)
        try:
            with os.fdopen(number, "w", encoding="utf-8") as file:
                file.write(f'<?xml version="1.0" encoding="UTF-8"?>\n<testsuite name="{escape("tapes")}" {attributes} skipped="0">\n')
                for case in self.cases:
                    file.write(case)
                file.write("</testsuite>\n")
                file.flush()
                os.fsync(file.fileno())
            os.chmod(temporary, 0o644)
            os.replace(temporary, self.name)
        except BaseException:
            os.unlink(temporary)
            raise
