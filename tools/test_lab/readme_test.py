"""README.md: what it shows is what its commands say, and it can be read in one sitting."""
import re
import shlex
import subprocess

from trying import ROOT, SAMPLES, Trial

# Commands that need what a test has not: a night's tapes, a reader, minutes of proving.
NOT_HERE = ("bash .ci/run", "tools/check", "bin/card ", "bin/judge --jsonl night.jsonl --junit night.xml /data/night",
            "bin/campaign night /data/night")
STATUS = {"bin/judge --samples": 1, "bin/explain samples/floor-limit-not-seen.tape": 1, "bin/recover samples/damaged.tape": 1}


def page():
    return (ROOT / "README.md").read_text()


def commands():
    """The lines of the page that are started: each stands further in than the text around it."""
    lines = re.findall(r"^ {4,}((?:bin/|tools/|bash |sha256sum ).*?)(?: {2,}#.*)?$", page(), re.M)
    return [line.rstrip() for line in lines]


class ReadMe(Trial):
    def started(self, line, status=0):
        """A command of the page, from a folder in which bin/ and samples/ are as in the repository."""
        for name in ("bin", "samples"):
            link = self.folder / name
            if not link.exists():
                link.symlink_to(ROOT / name)
        line = line.replace("/tmp/", shlex.quote(str(self.folder)) + "/")
        done = subprocess.run(["bash", "-c", line], cwd=self.folder, capture_output=True, text=True, timeout=600)
        self.assertEqual(done.returncode, status, (line, done))
        return done.stdout

    def test_it_is_short(self):
        self.assertLess(len(page().splitlines()), 141)

    def test_each_command_does_what_is_said(self):
        """The night is that of the samples; what comes of it is reported and entered as the page says."""
        self.started("bin/judge --jsonl night.jsonl --junit night.xml samples/ > /dev/null", 1)
        self.started("bin/campaign night 1=samples/approved-offline.tape 2=samples/no-such-day.tape", 1)
        tried = []
        for line in commands():
            if not line.startswith(NOT_HERE):
                self.started(line, STATUS.get(line, 1 if line.startswith("bin/report ") else 0))
                tried.append(line)
        self.assertGreater(len(tried), 9, tried)

    def test_the_samples_are_judged_by_one_command(self):
        said = self.started("bin/judge --samples", 1).splitlines()
        self.assertEqual(len(said), len(list(SAMPLES.glob("*.tape"))))

    def test_the_lines_that_are_shown(self):
        said = [line.strip() for line in self.started("bin/explain samples/floor-limit-not-seen.tape", 1).splitlines()]
        shown = re.search(r"^( {7}>   9 COMMAND.*?)\n\n", page(), re.M | re.S).group(1)
        for line in shown.splitlines():
            self.assertIn(line.strip(), said)
        self.assertEqual(self.started("bin/play /tmp/one.tape 7 < samples/online-pin.script").splitlines()[-1],
                         re.search(r"The last line of the first is `(.*?)`", page()).group(1))

    def test_pages_that_are_named_are_there(self):
        for name in re.findall(r"`((?:docs|samples|tools|bin|library|reference)/[\w./-]*)`", page()):
            self.assertTrue((ROOT / name).exists(), name)
