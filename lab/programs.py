"""The proved programs: whether one is fresh, building it, what is known of it, and the words that start it. In one place.

A program is fresh where the sources it was built from, and the program itself, have the contents that its stamp tells; times play no
part. The stamp (target/lab/NAME.json) is written when `rt` has proved and built it; the program is then copied from its crate's out/ to
target/bin/, and started from there. A tree without sources, as `bin/install` makes it, has stamps and programs alone.
"""
import fcntl
import functools
import hashlib
import json
import os
import platform
import re
import shutil
import subprocess
import time

from lab.words import Undone, voice

ROOT = os.path.dirname(os.path.dirname(os.path.realpath(__file__)))
STAMPS = os.path.join(ROOT, "target", "lab")
# What `rt run` says of a crate that it has proved, of the whole check, and of the program once it is linked.
PROVED = re.compile(r"crate (\w+): modules ")
CHECKED = re.compile(r"logic=")
BUILT = re.compile(r"rt: running out/(\w+)")


def installed():
    return not os.path.exists(os.path.join(ROOT, "crates.txt"))


def path_of(name):
    return os.path.join(ROOT, "target", "bin", name)


def crates():
    """Each crate with those it names, from crates.txt."""
    known = {}
    with open(os.path.join(ROOT, "crates.txt"), encoding="utf-8") as lines:
        for line in lines:
            name, colon, rest = line.partition("#")[0].partition(":")
            if colon and name.split():
                known[name.split()[0]] = rest.split()
    return known


def is_program(name):
    if installed():
        return re.fullmatch(r"\w+", name) is not None and os.path.exists(os.path.join(STAMPS, name + ".json"))
    return name in crates() and os.path.exists(os.path.join(ROOT, "crates", name, "src", "main.rt"))


def all_programs():
    if installed():
        return sorted(name[:-5] for name in os.listdir(STAMPS) if name.endswith(".json"))
    return sorted(name for name in crates() if is_program(name))


def closure(names, known):
    """The crates that a program is made of, itself among them."""
    found, left = set(), list(names)
    while left:
        name = left.pop()
        if name not in found and name in known:
            found.add(name)
            left += known[name]
    return sorted(found)


def sha256_of(path):
    with open(path, "rb") as file:
        return hashlib.sha256(file.read()).hexdigest()


def sources_of(name):
    """The sha256 of all that a program is made of and proved by: src, specs and proofs of its crates, and what these name."""
    known, digest = crates(), hashlib.sha256()
    for crate in closure([name], known):
        digest.update(f"{crate}: {' '.join(known[crate])}\n".encode())
        for part in ("src", "specs", "proofs"):
            for folder, folders, files in os.walk(os.path.join(ROOT, "crates", crate, part)):
                folders.sort()
                for file in sorted(files):
                    path = os.path.join(folder, file)
                    digest.update(f"{sha256_of(path)}  {os.path.relpath(path, ROOT)}\n".encode())
    return digest.hexdigest()


def kit_home():
    """The kit's folder, or None where there is no `rt`."""
    home = os.environ.get("RATTLE_HOME")
    if home:
        return home
    rt = shutil.which("rt")
    return rt and os.path.dirname(os.path.dirname(os.path.realpath(rt)))


def kit_identity():
    home = kit_home()
    try:
        with open(os.path.join(home or "", "KIT-ID"), encoding="utf-8") as file:
            return file.read().strip()
    except OSError:
        return None


def stamp_of(name):
    """What was written down when the program was built, or None."""
    try:
        with open(os.path.join(STAMPS, name + ".json"), encoding="utf-8") as file:
            stamp = json.load(file)
    except (OSError, ValueError):
        return None
    return stamp if isinstance(stamp, dict) and {"sources", "sha256", "commit", "clean", "kit", "check"} <= set(stamp) else None


def stale(name):
    """Why a program has to be built, or None."""
    stamp = stamp_of(name)
    if not os.path.exists(path_of(name)) or stamp is None:
        return "it is not built yet"
    if sha256_of(path_of(name)) != stamp["sha256"]:
        return "the program is not the one that was built"
    if not installed():
        if sources_of(name) != stamp["sources"]:
            return "its sources are others than those it was built from"
        if kit_identity() not in (None, stamp["kit"]):
            return "the kit is another than the one it was built with"
    return None


def git(*words):
    try:
        done = subprocess.run(["git", "-C", ROOT, *words], stdin=subprocess.DEVNULL, capture_output=True, text=True)
    except OSError:
        return None
    return done.stdout.strip() if done.returncode == 0 else None


def build(names):
    """Has `rt` prove and build programs, with a line of progress, and writes their stamps."""
    if shutil.which("rt") is None:
        raise Undone(f"{names[0]} cannot be built: the Rattle kit is not here (no `rt` on the PATH). "
                     "On a machine that has it, bin/install puts programs and front where there is none")
    os.makedirs(STAMPS, exist_ok=True)
    with open(os.path.join(STAMPS, "lock"), "w") as lock:
        fcntl.flock(lock, fcntl.LOCK_EX)
        names = [name for name in names if stale(name)]
        if names:
            build_all(names)


def build_all(names):
    sources = {name: sources_of(name) for name in names}
    commit, changes = git("rev-parse", "HEAD"), git("status", "--porcelain")
    parts = len(closure(names, crates()))
    log = os.path.join(STAMPS, "build.log")
    voice.note(f"proving and building {' and '.join(names)}: {parts} parts, each proved once; the log is {log}")
    began, done, checks = time.monotonic(), set(), {}

    def told(line):
        found = PROVED.match(line)
        if found and found.group(1) not in done:
            done.add(found.group(1))
            voice.progress(f"{len(done)} of {parts}: {found.group(1)}, {time.monotonic() - began:.0f} s")

    with open(log, "w", encoding="utf-8", errors="replace") as file:
        for name in names:
            status, checks[name] = build_one(name, file, told)
            if status is not None:
                break
    took = time.monotonic() - began
    if status is not None:
        with open(log, encoding="utf-8") as file:
            for line in file.read().splitlines()[-12:]:
                voice.note("    ", line)
        raise Undone(f"{' and '.join(names)} could not be built (status {status} after {took:.0f} s): the whole log is {log}")
    for name in names:
        write_stamp(name, sources[name], commit, changes, took, checks[name])
    voice.note(f"built after {took:.0f} s")


def build_one(name, log, told):
    """Has `rt run` prove and link a program, and puts it where it is started from; the status where that failed, and the check's last line.
    `rt run` also starts the program: it finds no arguments and an empty input there, and what it says is thrown away."""
    home = os.path.join(ROOT, "crates", name)
    for old in (path_of(name), os.path.join(home, "out", name + ".stamp")):
        if os.path.exists(old):
            os.unlink(old)
    check, built = None, False
    process = subprocess.Popen(["rt", "run"], cwd=home, stdin=subprocess.DEVNULL, stdout=subprocess.DEVNULL, stderr=subprocess.PIPE,
                               text=True, errors="replace")
    try:
        for line in process.stderr:
            log.write(line)
            log.flush()
            told(line)
            if not built:
                check = line.strip() if CHECKED.match(line) else check
                built = BUILT.match(line) is not None
    except BaseException:
        process.kill()
        raise
    status = process.wait()
    if not built:
        return status, check
    os.makedirs(os.path.dirname(path_of(name)), exist_ok=True)
    shutil.copy2(os.path.join(home, "out", name), path_of(name) + ".new")
    os.replace(path_of(name) + ".new", path_of(name))
    return None, check


def write_stamp(name, sources, commit, changes, took, check):
    if sources_of(name) != sources:
        raise Undone(f"{name}: its sources changed while it was built")
    if not check or not check.startswith("logic=proved "):
        raise Undone(f"{name}: the check left no last line in its log")
    stamp = {"program": name, "sources": sources, "sha256": sha256_of(path_of(name)), "commit": commit or "unknown",
             "clean": changes == "", "kit": kit_identity(), "check": check, "seconds": round(took)}
    place = os.path.join(STAMPS, name + ".json")
    with open(place + ".new", "w", encoding="utf-8") as file:
        json.dump(stamp, file, indent=1)
        file.write("\n")
    os.replace(place + ".new", place)


@functools.lru_cache(maxsize=None)
def ready(*names):
    """The words that start each program; it is built first where it is not fresh."""
    why = [(name, stale(name)) for name in names]
    old = [name for name, reason in why if reason]
    if old and installed():
        raise Undone(f"{old[0]} cannot be used: {dict(why)[old[0]]}, and there are no sources here to build it from")
    if old:
        build(old)
    return tuple(words_for(path_of(name)) for name in names)


def words_for(program):
    """The programs are made for x86-64; on another processor they run under the kit's emulator, or under the one that was installed."""
    if platform.machine() == "x86_64":
        return [program]
    places = [os.path.join(ROOT, "emulator")]
    home = kit_home()
    if home:
        places.append(os.path.join(home, "on", platform.machine(), "toolchain"))
    for place in places:
        words = [os.path.join(place, "bin", "qemu-x86_64"), os.path.join(place, "lib", "ld-linux-x86-64.so.2"),
                 "--library-path", os.path.join(place, "lib"), program]
        if os.path.exists(words[0]):
            return words
    raise Undone(f"{os.path.basename(program)} is made for x86-64, this is {platform.machine()}, and there is no kit with an emulator")


def version(name):
    """What is known of a program as it stands, in one line."""
    stamp = stamp_of(name)
    if stamp is None or not os.path.exists(path_of(name)):
        return f"{name}: not built"
    why = stale(name)
    state = "clean" if stamp["clean"] else "with changes"
    return (f"{name}: commit {stamp['commit']}, {state}, {stamp['kit']}, sha256 {stamp['sha256']}, {stamp['check']}"
            + (f"; not fresh: {why}" if why else ""))


def versions(names):
    if not installed():
        commit, changes = git("rev-parse", "HEAD"), git("status", "--porcelain")
        front = f"front: commit {commit or 'unknown'}{', clean' if changes == '' else ', with changes'}"
    else:
        with open(os.path.join(ROOT, "INSTALLED"), encoding="utf-8") as file:
            front = file.read().strip()
    return [front] + [version(name) for name in names]


def judge_version(name):
    """The judge that said a verdict: enough to find it again."""
    stamp = stamp_of(name)
    return f"{stamp['commit'][:12]}{'' if stamp['clean'] else '+'} {stamp['sha256'][:16]}"


class Ended(Exception):
    """A program ended where an answer was due; the text is what it said on standard error."""


class Talk:
    """A program that answers each line before it reads the next. It stands apart from our terminal: an interrupt there ends us, and it
    then meets the end of its input. What cannot be written is an error to it, as to us, and not a signal."""

    def __init__(self, words, keep=()):
        """`keep` are descriptors that it holds too, such as a lock, which then lasts as long as it does."""
        self.errors = os.memfd_create("errors") if hasattr(os, "memfd_create") else os.open("/dev/null", os.O_RDWR)
        self.process = subprocess.Popen(words, stdin=subprocess.PIPE, stdout=subprocess.PIPE, stderr=self.errors, start_new_session=True,
                                        restore_signals=False, pass_fds=keep)

    def ask(self, line):
        """The answer's line, its line feed included."""
        try:
            self.process.stdin.write(line)
            self.process.stdin.flush()
        except OSError:
            raise Ended(self.complaint()) from None
        return self.more()

    def more(self):
        """One line more of an answer that has several."""
        try:
            answer = self.process.stdout.readline()
        except OSError:
            answer = b""
        if not answer.endswith(b"\n"):
            raise Ended(self.complaint())
        return answer

    def complaint(self):
        self.close()
        ended = self.process.returncode
        return self.said or (f"it was ended by signal {-ended}" if ended < 0 else f"it said nothing, status {ended}")

    def close(self):
        """Ends it by ending its input; what it said on standard error stays in `said`."""
        for stream in (self.process.stdin, self.process.stdout):
            try:
                stream.close()
            except OSError:
                pass
        try:
            self.process.wait(10)
        except subprocess.TimeoutExpired:
            self.process.kill()
            self.process.wait()
        if self.errors is not None:
            self.said = os.pread(self.errors, 2000, 0).decode("utf-8", "backslashreplace").strip()
            os.close(self.errors)
            self.errors = None


def said(words, data=None, descriptor=None):
    """All that a program says to standard output and to standard error, and whether it ended by itself."""
    done = subprocess.run(words, input=data, stdin=descriptor if data is None else None, capture_output=True, start_new_session=True,
                          restore_signals=False)
    return done.stdout, done.stderr.decode("utf-8", "backslashreplace").strip(), done.returncode
