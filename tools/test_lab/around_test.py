"""What stands around the commands: manual pages, the Debian package, the page on a night."""
import gzip
import json
import os
import pathlib
import re
import shutil
import subprocess

from trying import FAIL, INCONCLUSIVE, PASS, ROOT, Trial, without_kit


def commands():
    return {path.name for path in (ROOT / "bin").iterdir()}


class Pages(Trial):
    def test_a_page_for_each_command(self):
        subprocess.run([ROOT / "tools/man-pages", self.folder / "man"], check=True, capture_output=True)
        pages = {path.name: path.read_text() for path in (self.folder / "man").iterdir()}
        self.assertEqual(set(pages), {f"jegunalofi-{name}.1" for name in commands()})
        for name in commands():
            self.words_are_there(name, pages[f"jegunalofi-{name}.1"])

    def words_are_there(self, name, page):
        """Every word of --help stands in the page, in its order, and every section is there."""
        shown = re.sub(r"^\.(?:TP|PP|B|SH [A-Z ]+)(?: |$)", "", page.split(".SH SYNOPSIS\n")[1], flags=re.M)
        for mark, meant in ((r"\&", ""), (r"\-", "-"), (r"\(aq", "'"), (r"\`", "`"), (r"\(ti", "~"), (r"\(ha", "^"), (r"\e", "\\")):
            shown = shown.replace(mark, meant)
        told = self.bin(name, "--help").out.decode()
        told = re.sub(rf"(?<![\w/])bin/({'|'.join(commands())})\b", r"jegunalofi-\1", told)
        told = re.sub(r"^(?:Example|Status|Programs): ", "", told, flags=re.M)
        self.assertEqual(shown.split(), told.split(), name)
        for section in ("NAME", "SYNOPSIS", "DESCRIPTION", "EXAMPLE", "EXIT STATUS"):
            self.assertIn(f".SH {section}\n", page, name)

    def test_troff_has_nothing_to_say(self):
        if not shutil.which("groff"):
            self.skipTest("groff is not here")
        subprocess.run([ROOT / "tools/man-pages", self.folder / "man"], check=True, capture_output=True)
        for path in sorted((self.folder / "man").iterdir()):
            done = subprocess.run(["groff", "-man", "-ww", "-Tutf8", path], capture_output=True)
            self.assertEqual((done.returncode, done.stderr), (0, b""), path)
            self.assertIn(path.stem.upper().encode() + b"(1)", done.stdout)


class Package(Trial):
    def setUp(self):
        super().setUp()
        if not shutil.which("dpkg-deb"):
            self.skipTest("dpkg-deb is not here")

    def made(self, folder):
        done = subprocess.run([ROOT / "tools/deb", self.folder / folder], capture_output=True, text=True, timeout=1800)
        self.assertEqual(done.returncode, 0, done)
        return pathlib.Path(done.stdout.strip())

    def test_it_is_whole_and_runs_without_the_kit(self):
        package = self.made("one")
        self.assertEqual(self.made("two").read_bytes(), package.read_bytes())
        fields = subprocess.run(["dpkg-deb", "-f", package], capture_output=True, text=True, check=True).stdout
        for field in ("Package: jegunalofi\n", "Architecture: amd64\n", "Depends: python3 (>= 3.9)"):
            self.assertIn(field, fields)
        listed = subprocess.run(["dpkg-deb", "-c", package], capture_output=True, text=True, check=True).stdout.splitlines()
        self.assertTrue(listed and all(" root/root " in line for line in listed))
        subprocess.run(["dpkg-deb", "-x", package, self.folder / "x"], check=True)
        usr = self.folder / "x/usr"
        names = {path.name for path in (usr / "bin").iterdir()}
        self.assertEqual(names, {f"jegunalofi-{name}" for name in commands() - {"install"}})
        self.assertEqual({path.name for path in (usr / "share/man/man1").iterdir()}, {f"{name}.1.gz" for name in names})
        self.assertIn(b".TH JEGUNALOFI-JUDGE", gzip.decompress((usr / "share/man/man1/jegunalofi-judge.1.gz").read_bytes()))
        self.runs(usr)

    def runs(self, usr):
        folder, environment = without_kit()
        self.addCleanup(shutil.rmtree, folder, ignore_errors=True)
        self.tape("a/1.tape", PASS)
        self.tape("b/2.tape", FAIL)

        def run(name, *words, **more):
            return subprocess.run([usr / f"bin/jegunalofi-{name}", *words], env=environment, capture_output=True, cwd=self.folder, **more)
        for link in (usr / "bin").iterdir():
            self.assertFalse(os.path.isabs(os.readlink(link)))
            self.assertEqual(run(link.name[len("jegunalofi-"):], "--help").returncode, 0)
        self.assertEqual(run("judge", "--jsonl", "n.jsonl", "a", "b").stdout, b"a/1.tape PASS 12 0 0\nb/2.tape FAIL 0 0 0\n")
        self.assertEqual(run("report", "n.jsonl", "n.html").returncode, 1)
        self.assertEqual(run("log-from-tape", "--format", "pcscd", "--side", "s", "a/1.tape", "l").returncode, 0)
        self.assertEqual(run("tape-from-log", "--format", "pcscd", "--side", "s", "l", "c.tape", "7").stdout, b"c.tape PASS 12 0 0\n")


class Night(Trial):
    """The commands of docs/NIGHT.md, on a small one."""

    def block(self, heading, mark):
        """The indented lines under a heading that hold a word."""
        page = (ROOT / "docs/NIGHT.md").read_text().split(f"## {heading}\n")[1].split("\n## ")[0]
        found = [block for block in re.findall(r"(?:^    .*\n)+", page, re.M) if mark in block]
        self.assertEqual(len(found), 1, (heading, mark))
        return "".join(line[4:] for line in found[0].splitlines(True)).replace("/data/night", "data")

    def night(self):
        for k in range(1, 31):
            self.tape(f"data/t{k % 3}/a b-{k}.tape", (PASS, PASS, FAIL, INCONCLUSIVE)[k % 4])

    def shell(self, text, **more):
        text = text.replace("bin/", f"{ROOT}/bin/").replace("jegunalofi-judge", f"{ROOT}/bin/judge")
        return subprocess.run(["sh", "-c", text], cwd=self.folder, capture_output=True, timeout=300, **more)

    def lines(self):
        return [json.loads(row)["verdict"] for row in (self.folder / "night.jsonl").read_bytes().splitlines()]

    def test_in_parts(self):
        """Split as the page says, with a job array's numbers given by hand."""
        self.night()
        first = self.block("On a cluster, as a job array", "split").replace("-l 2000", "-l 7").split("sbatch")[0]
        self.assertEqual(self.shell(first).returncode, 0)
        parts = sorted(self.folder.glob("names.*"))
        self.assertEqual(len(parts), 5)
        script = self.block("On a cluster, as a job array", "#!/bin/sh")
        for k in range(5):
            done = self.shell(script, env=dict(os.environ, SLURM_ARRAY_TASK_ID=str(k), SLURM_CPUS_PER_TASK="2"))
            self.assertEqual(done.returncode, 0, done)
            told = (self.folder / f"part-{k:03d}.jsonl").read_bytes()
            status = "0\n" if told.count(b'"PASS"') == told.count(b"\n") else "1\n"
            self.assertEqual((self.folder / f"part-{k:03d}.status").read_text(), status)
        self.shell("cat part-*.jsonl > night.jsonl")
        self.assertEqual(len(self.lines()), 30)
        self.check(self.bin("judge", "--jsonl", "whole.jsonl", "data"), 1)
        self.assertEqual(sorted((self.folder / "night.jsonl").read_bytes().splitlines()),
                         sorted((self.folder / "whole.jsonl").read_bytes().splitlines()))

    def test_with_gnu_parallel(self):
        if not shutil.which("parallel"):
            self.skipTest("GNU parallel is not here")
        self.night()
        done = self.shell(self.block("With GNU parallel", "parallel --pipe").replace("-N 2000", "-N 7"))
        self.assertEqual(len(self.lines()), 30, done)
        self.assertEqual((done.returncode, done.stdout.split(b" TOTAL ")[1]), (1, b"30: night.html\n"), done)
        self.assertNotIn("There must be", (self.folder / "night.html").read_text())

    def test_signing(self):
        if not shutil.which("minisign"):
            self.skipTest("minisign is not here")
        self.night()
        self.assertEqual(self.shell(self.block("On one machine", "bin/campaign")).returncode, 1)
        signing = self.block("Signing", "minisign -G").replace("minisign -G", "minisign -G -W")
        self.assertEqual(self.shell(signing).returncode, 0)
        asking = self.block("Signing", "minisign -V")
        done = self.shell("set -e\n" + asking)
        self.assertEqual(done.returncode, 0, done)
        self.assertIn(b"good 30", done.stdout)
        with open(self.folder / "night.jsonl", "ab") as file:
            file.write(b"\n")
        self.assertNotEqual(self.shell("set -e\n" + asking).returncode, 0)
