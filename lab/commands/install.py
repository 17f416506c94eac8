"""bin/install: programs and front for a machine without the kit."""
import os
import platform
import shutil

from lab import programs
from lab.words import Undone, command, text, voice

USAGE = """
bin/install PREFIX    puts the programs of the front, the front and the samples under PREFIX/share/jegunalofi, and links to its
                      commands in PREFIX/bin. Nothing of it needs the kit or these sources. On processors other than x86-64 the kit's
                      emulator goes along

Example:  bin/install /opt/lab && /opt/lab/bin/judge --samples
Status:   0 installed; 2 not
"""
PROGRAMS = ["lab_tapes", "judge_tape", "book_file", "recover_tape", "play", "exchange_t0", "exchange_t1", "read_atr", "hand_answer"]
COMMANDS = ["judge", "explain", "campaign", "book", "recover", "play", "report", "run", "start", "card", "tape-from-log", "log-from-tape"]


def copy_emulator(target):
    home = programs.kit_home()
    tools = os.path.join(home, "on", platform.machine(), "toolchain")
    os.makedirs(os.path.join(target, "emulator", "bin"))
    shutil.copy2(os.path.join(tools, "bin", "qemu-x86_64"), os.path.join(target, "emulator", "bin"))
    os.makedirs(os.path.join(target, "emulator", "lib"))
    for name in ("ld-linux-x86-64.so.2", "libc.so.6", "libm.so.6", "libgcc_s.so.1"):
        shutil.copy2(os.path.join(tools, "lib", name), os.path.join(target, "emulator", "lib"))


def main(asked):
    if len(asked.rest) != 1:
        raise Undone("the folder to install to is named, and nothing else")
    if programs.installed():
        raise Undone("this is an installed tree; install from the sources")
    prefix = os.path.abspath(os.fsdecode(asked.rest[0]))
    target = os.path.join(prefix, "share", "jegunalofi")
    if os.path.lexists(target):
        raise Undone(f"{target}: is there already; take it away first")
    links = {os.path.join(prefix, "bin", name): os.path.join("..", "share", "jegunalofi", "bin", name) for name in COMMANDS}
    for link, place in links.items():
        if os.path.lexists(link) and not (os.path.islink(link) and os.readlink(link) == place):
            raise Undone(f"{link}: is there already and not ours; nothing was installed")
    programs.ready(*PROGRAMS)
    fresh = target + ".new"
    shutil.rmtree(fresh, ignore_errors=True)
    for folder in (os.path.join(fresh, "target", "bin"), os.path.join(fresh, "target", "lab"), os.path.join(fresh, "bin"),
                   os.path.join(prefix, "bin")):
        os.makedirs(folder, exist_ok=True)
    for name in PROGRAMS:
        shutil.copy2(programs.path_of(name), os.path.join(fresh, "target", "bin"))
        shutil.copy2(os.path.join(programs.STAMPS, name + ".json"), os.path.join(fresh, "target", "lab"))
    for name in COMMANDS:
        shutil.copy2(os.path.join(programs.ROOT, "bin", name), os.path.join(fresh, "bin"))
    ours = shutil.ignore_patterns("__pycache__")
    shutil.copytree(os.path.join(programs.ROOT, "lab"), os.path.join(fresh, "lab"), ignore=ours)
    shutil.copytree(os.path.join(programs.ROOT, "samples"), os.path.join(fresh, "samples"))
    with open(os.path.join(fresh, "INSTALLED"), "w", encoding="utf-8") as file:
        file.write(programs.versions([])[0] + "\n")
    if platform.machine() != "x86_64":
        copy_emulator(fresh)
    os.rename(fresh, target)
    for link, place in links.items():
        if not os.path.lexists(link):
            os.symlink(place, link)
    voice.line(f"installed in {text(prefix)}: {' '.join(COMMANDS)}")


def start():
    command(USAGE, [], main)
