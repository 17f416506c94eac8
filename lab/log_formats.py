"""The formats of logs, a strict reader and a writer for each. Where a format wants what no tape has, a time, there stands nought."""
import re

from lab.log_reading import SPACED, WORDS, Format, NotOfTheFormat, joined, spaced


class Scriptor(Format):
    """What scriptor of pcsc-tools prints: `> command`, as it was typed, and `< answer : what its status means`, the answer in lines of
    sixteen bytes. Of a script in a file it prints each line first: remarks, empty lines, and each command, held against its `>`."""
    tpdu = True
    TYPED, FULL = "((?:[0-9A-Fa-f]{2} )*[0-9A-Fa-f]{2}) ?", "((?:[0-9A-F]{2} ){16})"
    forms = ((r"> " + TYPED, "command"), (rf"< {SPACED} : {WORDS}", "answer"), (r"< " + FULL, "begun"), (FULL, "more"),
             (rf"{SPACED} : {WORDS}", "ended"), (r"((?:[0-9A-Fa-f]{2} ?)+)", "echo"), (r"Using T=([01]) protocol", "protocol"),
             (rf"No reader given: using {WORDS}|Using given card reader: {WORDS}|Using given file: {WORDS}", "head"),
             (rf"#{WORDS}|", "remark"),
             (r"Reading commands from STDIN|Trying T=[01] protocol", "head"), (r"exit", "tail"))

    def __init__(self):
        super().__init__()
        self.part, self.typed = "", None

    def command(self, at, digits):
        if self.part or self.typed not in (None, bytes.fromhex(digits)):
            raise NotOfTheFormat("the answer above has no end" if self.part else "another command than the line above")
        self.typed = None
        super().command(at, digits)

    def begun(self, at, digits):
        self.part = digits

    def more(self, at, digits):
        if not self.part:
            return self.echo(at, digits)
        self.part += digits

    def ended(self, at, digits):
        if not self.part or digits.count(" ") > 15:
            raise NotOfTheFormat("no line of this format")
        self.answer(at, self.part + digits)
        self.part = ""

    def echo(self, at, digits):
        if self.part or self.typed is not None or self.into.open:
            raise NotOfTheFormat("bytes that are neither an answer's nor a command's")
        self.typed = bytes.fromhex(digits)

    def remark(self, at):
        if self.part or self.into.open:
            raise NotOfTheFormat("an answer is due here")

    def close(self, count):
        if self.part or self.typed is not None:
            raise NotOfTheFormat(f"line {count}: the log ends in the middle of an exchange")

    def write(self, exchanges):
        return "".join(f"> {spaced(one.command)}\n" + (self.written_answer(one.answer) if one.answer else "") for one in exchanges)

    def written_answer(self, answer):
        meaning = "Normal processing." if answer[-2:] == b"\x90\x00" else "Status " + spaced(answer[-2:])
        folded = re.sub("(?:.. ){16}", lambda found: found.group() + "\n", spaced(answer))
        return f"< {folded} : {meaning}\n"


class Pcscd(Format):
    """pcscd's own log (`pcscd --foreground --apdu`, without colours): a time, in some versions a thread, and `APDU:` or `SW:` with the
    bytes. It ends lines that are too long for it with dots; such a line is none here."""
    tpdu = True
    forms = ((r"[0-9]{8,} (?:\[[0-9]+\] )?APDU: " + SPACED + " ?", "command"),
             (r"[0-9]{8,} (?:\[[0-9]+\] )?SW: " + SPACED + " ?", "answer"))

    def write(self, exchanges):
        rows = [(word, data) for one in exchanges for word, data in (("APDU", one.command), ("SW", one.answer)) if data]
        return "".join(f"00000000 {word}: {spaced(data)} \n" for word, data in rows)


class GlobalPlatformPro(Format):
    """What GlobalPlatformPro prints with --debug: each command cut into header, Lc, data and Le with the number of data bytes, each answer
    into data and status with the number of data bytes and the time. The numbers are held against the bytes."""
    forms = ((r"A>> T=(?:0|1|CL|\*) \(4\+([0-9]{4})\) ([0-9A-F]{8})((?: [0-9A-F]+)*) ?", "cut_command"),
             (r"A<< \(([0-9]{4})\+2\) \((?:[0-9]+s)?[0-9]+ms\)(?: ([0-9A-F]+))? ([0-9A-F]{4})", "cut_answer"),
             (rf"SCardConnect\({WORDS}\) -> T=(?:0|1|CL), [0-9A-F]+", "head"), (rf"SCardBeginTransaction\({WORDS}\)", "head"),
             (rf"SCardEndTransaction\({WORDS}\)", "tail"), (rf"SCardDisconnect\({WORDS}\)", "tail"))

    def cut_command(self, at, count, header, rest):
        parts, data = rest.split(), 2 * int(count)
        sizes = [len(part) for part in parts]
        fits = sizes in ([2, data], [2, data, 2]) and 2 * int(parts[0], 16) == data if data else sizes in ([], [2])
        if not fits:
            raise NotOfTheFormat("its parts are not header, Lc, data and Le, or not as long as it says")
        self.command(at, header + "".join(parts))

    def cut_answer(self, at, count, data, status):
        if len(data or "") != 2 * int(count):
            raise NotOfTheFormat("its data is not as long as it says")
        self.answer(at, (data or "") + status)

    def write(self, exchanges):
        return "".join(self.written_command(one.command) + (self.written_answer(one.answer) if one.answer else "") for one in exchanges)

    def written_command(self, command):
        data = command[5:5 + command[4]] if len(command) > 5 else b""
        parts = [command[4:5], data, command[5 + len(data):]]
        if len(command) < 4 or len(command) > 5 and (not data or len(data) != command[4] or len(parts[2]) > 1):
            raise NotOfTheFormat(f"{joined(command)} is no command of header, Lc, data and Le: this format cannot say it")
        words = " ".join(joined(part) for part in (command[:4], *parts) if part)
        return f"A>> T=* (4+{len(data):04d}) {words}\n"

    def written_answer(self, answer):
        data = f" {joined(answer[:-2])}" if len(answer) > 2 else ""
        return f"A<< ({len(answer) - 2:04d}+2) (0ms){data} {joined(answer[-2:])}\n"


def dumped(data, filled):
    """Bytes as opensc-tool shows them: in hexadecimal, then as text; lines behind the first are filled up to the text's column."""
    row = "".join(f"{byte:02X} " for byte in data)
    return (row.ljust(48) if filled else row) + "".join(chr(byte) if 32 <= byte < 127 else "." for byte in data)


class OpenscTool(Format):
    """What opensc-tool --send-apdu prints: the command, the status, and the data in lines of sixteen bytes, in hexadecimal and as text. The
    text is held against the bytes."""
    forms = ((rf"Using reader with a card: {WORDS}", "head"), (r"Sending: " + SPACED + " ?", "command"),
             (r"Received \(SW1=0x([0-9A-F]{2}), SW2=0x([0-9A-F]{2})\)(:?)", "status"))

    def __init__(self):
        super().__init__()
        self.data, self.ending = b"", None

    def status(self, at, first, second, colon):
        self.flush()
        if not self.into.open:
            raise NotOfTheFormat("an answer, and no command before it")
        self.ending = bytes.fromhex(first + second)
        if not colon:
            self.into.answer(self.ending)
            self.ending = None

    def command(self, at, digits):
        self.flush()
        super().command(at, digits)

    def take(self, row, at):
        if self.ending is None or not re.match(r"[0-9A-F]{2} ", row):
            return super().take(row, at)
        count = len(row) - 48 if self.data else len(row) // 4
        part = row[:3 * count]
        if len(self.data) % 16 or not 1 <= count <= 16 or not re.fullmatch(r"(?:[0-9A-F]{2} )+", part):
            raise NotOfTheFormat("no line of data")
        if row != dumped(bytes.fromhex(part), bool(self.data)):
            raise NotOfTheFormat("bytes and text of this line are not one")
        self.data += bytes.fromhex(part)

    def flush(self):
        """The answer whose lines have been met."""
        if self.ending is not None and not self.data:
            raise NotOfTheFormat("the data of the answer above is missing")
        if self.ending is not None:
            self.into.answer(self.data + self.ending)
        self.data, self.ending = b"", None

    def close(self, count):
        self.flush()

    def write(self, exchanges):
        return "".join(f"Sending: {spaced(one.command)} \n" + (self.written_answer(one.answer) if one.answer else "") for one in exchanges)

    def written_answer(self, answer):
        data, status = answer[:-2], f"Received (SW1=0x{answer[-2]:02X}, SW2=0x{answer[-1]:02X})"
        rows = [dumped(data[at:at + 16], at > 0) for at in range(0, len(data), 16)]
        return "\n".join([status + (":" if data else ""), *rows]) + "\n"


class Sheet(Format):
    """The sheet of source 004: a title, `* APDU:`, `* RESP:` where there is data, `* SW12:`. Bytes may be set apart by spaces and `||`, and
    go on in the next line. Where the sheet says in words or in brackets what is left out, no tape can be made of it."""
    TITLES = {"A4": "SELECT", "A8": "GET PROCESSING OPTIONS", "B2": "READ RECORD", "AE": "GENERATE AC", "E6": "INSTALL", "E2": "STORE DATA",
              "CA": "GET DATA"}
    forms = ((r"", "title"), (rf"(?:{'|'.join(TITLES.values())}|COMMAND)(?: DF)?(?: [0-9A-F]+)?", "title"), (r"\* APDU: (.+)", "apdu"),
             (r"\* RESP: (.+?)(?: \(FCI data\))?", "resp"), (r"\* SW12: ([0-9A-F]{4})", "status"), (r"([0-9A-F| ]+)", "more"),
             (r"\(.+\)", "left_out"), (r"END", "end"))

    def __init__(self):
        super().__init__()
        self.parts, self.at = [], 0

    def title(self, at):
        if self.parts:
            raise NotOfTheFormat("the status of the command above is missing")

    def end(self, at):
        self.title(at)
        self.into.tail()

    def apdu(self, at, words):
        self.title(at)
        self.parts, self.at = [words], at

    def resp(self, at, words):
        if len(self.parts) != 1:
            raise NotOfTheFormat("an answer, and no command before it")
        self.parts.append(words)

    def more(self, at, words):
        if not self.parts:
            raise NotOfTheFormat("bytes that go on with nothing")
        self.parts[-1] += words

    def left_out(self, at):
        raise NotOfTheFormat("exchanges are left out of the sheet here")

    def status(self, at, digits):
        if not self.parts:
            raise NotOfTheFormat("a status, and no command before it")
        self.flush()
        self.into.answer(self.bytes_in(self.parts[1]) + bytes.fromhex(digits) if len(self.parts) > 1 else bytes.fromhex(digits))
        self.parts = []

    def bytes_in(self, words):
        digits = re.sub(r" |\|\|", "", words)
        if not re.fullmatch(r"(?:[0-9A-F]{2})+", digits):
            raise NotOfTheFormat(f"not bytes: {words[:60]}")
        return bytes.fromhex(digits)

    def flush(self):
        self.into.command(self.bytes_in(self.parts[0]), self.at)

    def close(self, count):
        if len(self.parts) > 1:
            raise NotOfTheFormat(f"line {count}: the answer's status is missing")
        if self.parts:
            self.flush()

    def write(self, exchanges):
        return "".join(self.written(one) for one in exchanges) + ("END\n" if exchanges and exchanges[-1].answer else "")

    def written(self, one):
        rows = [self.TITLES.get(joined(one.command[1:2]), "COMMAND"), f"* APDU: {joined(one.command)}"]
        if one.answer:
            rows += [f"* RESP: {joined(one.answer[:-2])}"] if len(one.answer) > 2 else []
            rows += [f"* SW12: {joined(one.answer[-2:])}", ""]
        return "\n".join(rows) + "\n"


FORMATS = {"scriptor": Scriptor, "gppro": GlobalPlatformPro, "opensc-tool": OpenscTool, "pcscd": Pcscd, "sheet": Sheet}


def written(name, exchanges):
    """A log of exchanges in a format; one that the format cannot say is refused."""
    for at, one in enumerate(exchanges):
        if not one.command or one.answer is not None and len(one.answer) < 2:
            raise NotOfTheFormat(f"exchange {at}: no log can say a command without bytes, or an answer without a status")
        if one.answer is None and at + 1 < len(exchanges):
            raise NotOfTheFormat(f"exchange {at}: a command without an answer, and others behind it")
    return FORMATS[name]().write(exchanges)
