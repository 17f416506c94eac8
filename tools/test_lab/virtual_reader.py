"""A reader and cards that are not there: pcscd with the driver vpcd, and cards that speak to it over TCP. vpcd listens on every interface
of the machine as long as a test runs: for test machines only."""
import contextlib
import ctypes.util
import os
import pathlib
import shutil
import socket
import subprocess
import tempfile
import threading
import time

DRIVER = pathlib.Path("/usr/lib/pcsc/drivers/serial/libifdvpcd.so")
OFF, ON, RESET, ATR = b"\x00", b"\x01", b"\x02", b"\x04"
# pcscd looks for a card every 400 ms: one that goes and comes between two looks was never away for it.
SEEN = 0.9
PULL, MUTE = object(), object()


def missing():
    """Why there can be no reader here, or None."""
    if shutil.which("pcscd") is None:
        return "pcscd is not installed"
    if not DRIVER.exists():
        return "vpcd is not installed (Debian: vsmartcard-vpcd)"
    if ctypes.util.find_library("pcsclite") is None and not any(pathlib.Path("/usr/lib").rglob("libpcsclite.so.1")):
        return "libpcsclite is not installed"
    return None if os.geteuid() == 0 else "pcscd has to be started as root"


def free_port():
    """A port whose next one is free too: vpcd takes one for each of its two slots."""
    for _ in range(50):
        with contextlib.suppress(OSError), socket.socket() as first, socket.socket() as second:
            first.bind(("", 0))
            port = first.getsockname()[1]
            second.bind(("", port + 1))
            return port
    raise OSError("no two free ports")


class Service:
    """pcscd with one virtual reader of two slots."""

    def __init__(self):
        self.port = free_port()
        self.folder = pathlib.Path(tempfile.mkdtemp(prefix="readers "))
        (self.folder / "vpcd").write_text(f'FRIENDLYNAME "Virtual PCD"\nDEVICENAME /dev/null:{self.port:#06x}\nLIBPATH {DRIVER}\n'
                                          f"CHANNELID {self.port:#06x}\n")
        os.makedirs("/run/pcscd", exist_ok=True)
        self.log = open(self.folder / "log", "w+b")
        self.process = subprocess.Popen(["pcscd", "--foreground", "--config", self.folder], stdin=subprocess.DEVNULL, stdout=self.log,
                                        stderr=subprocess.STDOUT)
        self.wait()

    def wait(self):
        """Until the reader listens."""
        for _ in range(100):
            if self.process.poll() is not None:
                break
            with contextlib.suppress(OSError), open("/proc/net/tcp") as table:
                if f":{self.port:04X} 00000000:0000 0A" in table.read():
                    return
            time.sleep(0.05)
        self.log.seek(0)
        said = self.log.read(2000).decode(errors="replace").strip()
        self.close()
        raise OSError("pcscd did not come up: " + (said or "it said nothing"))

    def close(self):
        self.process.terminate()
        try:
            self.process.wait(10)
        except subprocess.TimeoutExpired:
            self.process.kill()
            self.process.wait(10)
        self.log.close()
        shutil.rmtree(self.folder, ignore_errors=True)


class Card(threading.Thread):
    """A card in the first slot. What answers a command is asked of `answer`: bytes, MUTE or PULL. `powered` is called at each reset."""

    def __init__(self, port, atr, answer, powered=lambda: None):
        super().__init__(daemon=True)
        self.atr, self.answer, self.powered = atr, answer, powered
        self.commands, self.first = [], threading.Event()
        self.socket = socket.create_connection(("127.0.0.1", port), 10)
        self.socket.settimeout(None)
        self.start()

    def take(self, count):
        data = b""
        while len(data) < count:
            # The service waits for our acknowledgement of a length before it sends what follows.
            self.socket.setsockopt(socket.IPPROTO_TCP, socket.TCP_QUICKACK, 1)
            piece = self.socket.recv(count - len(data))
            if not piece:
                raise EOFError
            data += piece
        return data

    def give(self, data):
        self.socket.sendall(len(data).to_bytes(2, "big") + data)

    def run(self):
        with contextlib.suppress(OSError, EOFError):
            while True:
                self.turn(self.take(int.from_bytes(self.take(2), "big")))

    def turn(self, asked):
        if asked == ATR:
            self.give(self.atr)
        elif asked in (ON, RESET):
            self.powered()
        elif asked != OFF:
            self.commands.append(asked)
            self.first.set()
            answer = self.answer(asked)
            if answer is PULL:
                self.socket.shutdown(socket.SHUT_RDWR)
            elif answer is not MUTE:
                self.give(answer)

    def pull(self):
        """Out of the reader, until the service has seen it."""
        with contextlib.suppress(OSError):
            self.socket.shutdown(socket.SHUT_RDWR)
        self.socket.close()
        self.join(10)
        time.sleep(SEEN)


class Scripted:
    """A card that gives answers in their order from each reset on; `instead` has what comes in place of some of them, by number."""

    def __init__(self, answers, instead=None, pause=0.0):
        self.answers, self.instead, self.pause, self.next = answers, instead or {}, pause, 0

    def powered(self):
        self.next = 0

    def answer(self, command):
        number, self.next = self.next, self.next + 1
        time.sleep(self.pause)
        if number in self.instead:
            return self.instead[number]
        return self.answers[number] if number < len(self.answers) else bytes.fromhex("6D00")


class OverT0:
    """The same card under T=0, as a reader hands it on. A command with data is answered '61 xx', one without '6C xx'; data comes in parts
    of 256. `instead` has what comes in place of the answer to some headers, by number."""

    def __init__(self, card, instead=None):
        self.card, self.instead, self.number, self.data, self.status = card, instead or {}, 0, b"", b""

    def powered(self):
        self.card.powered()
        self.number = 0

    def answer(self, header):
        number, self.number = self.number, self.number + 1
        if header[1] != 0xC0 and (len(header) > 5 or header[4] == 0):
            whole = self.card.answer(header + bytes(1) if len(header) > 5 else header)
            if whole in (MUTE, PULL) or len(whole) < 2:
                return whole
            self.data, self.status = whole[:-2], whole[-2:]
        if number in self.instead:
            return self.instead[number](self)
        return self.given(header)

    def told(self, first):
        """Status that tells how much there is."""
        return bytes([first, min(len(self.data), 256) % 256])

    def given(self, header):
        if len(header) > 5:
            return self.told(0x61) if self.data else self.status
        if header[1] != 0xC0 and header[4] == 0 and len(self.data) < 256:
            return self.told(0x6C) if self.data else self.status
        count = header[4] or 256
        part, self.data = self.data[:count], self.data[count:]
        return part + (self.told(0x61) if self.data else self.status)
