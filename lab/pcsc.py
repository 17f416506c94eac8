"""Readers by PC/SC: the library of its service (libpcsclite) by ctypes, and calls waited for in a thread of their own."""
import ctypes
import threading

LIBRARY = "libpcsclite.so.1"
T0, T1 = 1, 2
SYSTEM, EXCLUSIVE, UNPOWER = 2, 1, 2
# Of a reader's state: SCARD_STATE_PRESENT and SCARD_STATE_MUTE.
PRESENT, MUTE = 0x0020, 0x0200
TIMEOUT, NO_READERS = 0x8010000A, 0x8010002E
# The longest answer to reset, and the longest answer to a command of extended length, each with room to spare.
LONGEST_ATR, LONGEST_ANSWER = 64, 1 << 17

Long, Dword = ctypes.c_long, ctypes.c_ulong


class Request(ctypes.Structure):
    _fields_ = [("protocol", Dword), ("length", Dword)]


class State(ctypes.Structure):
    _fields_ = [("reader", ctypes.c_char_p), ("user", ctypes.c_void_p), ("current", Dword), ("event", Dword), ("atr_length", Dword),
                ("atr", ctypes.c_ubyte * 33)]


class Fault(Exception):
    """A call that gave an error; the text is the library's word for it."""

    def __init__(self, call, number, word):
        super().__init__(f"{call}: {word} (0x{number:08X})")
        self.number = number


class Hung(Exception):
    """A call that did not come back in time; it was left behind."""


def within(seconds, call):
    """What a call gives, waited for in a thread. One that does not come back is left behind: it holds nothing that is used again."""
    came = []

    def run():
        try:
            came.append((call(), None))
        except Fault as fault:
            came.append((None, fault))

    thread = threading.Thread(target=run, daemon=True)
    thread.start()
    thread.join(seconds)
    if not came:
        raise Hung(f"did not come back within {seconds} s and was left behind")
    value, fault = came[0]
    if fault:
        raise fault
    return value


class Service:
    """A context of the service. Raises OSError where the library is not there, Fault where the service is not."""

    def __init__(self):
        self.linked = ctypes.CDLL(LIBRARY)
        self.linked.pcsc_stringify_error.restype = ctypes.c_char_p
        self.context = Long()
        self.call("SCardEstablishContext", Dword(SYSTEM), None, None, ctypes.byref(self.context))

    def call(self, name, *words):
        function = getattr(self.linked, name)
        function.restype = Long
        number = function(*words) & 0xFFFF_FFFF
        if number:
            raise Fault(name, number, self.linked.pcsc_stringify_error(Long(number)).decode("utf-8", "backslashreplace"))

    def readers(self):
        """The readers' names. None is an answer here, not a fault."""
        size = Dword()
        try:
            self.call("SCardListReaders", self.context, None, None, ctypes.byref(size))
            room = ctypes.create_string_buffer(size.value)
            self.call("SCardListReaders", self.context, None, room, ctypes.byref(size))
        except Fault as fault:
            if fault.number == NO_READERS:
                return []
            raise
        return [name for name in room.raw[:size.value].split(b"\0") if name]

    def look(self, reader, known, milliseconds):
        """A reader's state and the answer to reset of the card in it, when the state is another than the one that is known or the time is
        over. Under the inverse convention too these are data bytes."""
        state = State(reader=reader, current=known)
        try:
            self.call("SCardGetStatusChange", self.context, Dword(milliseconds), ctypes.byref(state), Dword(1))
        except Fault as fault:
            if fault.number != TIMEOUT:
                raise
        return state.event, bytes(state.atr[:min(state.atr_length, len(state.atr))])

    def close(self):
        self.call("SCardReleaseContext", self.context)


class Card:
    """A card in a reader, for nobody else, under one protocol and after a cold reset."""

    def __init__(self, service, reader, protocol):
        self.service, self.handle, self.active = service, Long(), Dword()
        service.call("SCardConnect", service.context, reader, Dword(EXCLUSIVE), Dword(protocol), ctypes.byref(self.handle),
                     ctypes.byref(self.active))
        service.call("SCardReconnect", self.handle, Dword(EXCLUSIVE), Dword(protocol), Dword(UNPOWER), ctypes.byref(self.active))

    def atr(self):
        name, state, protocol, size = Dword(), Dword(), Dword(), Dword(LONGEST_ATR)
        room = ctypes.create_string_buffer(LONGEST_ATR)
        self.service.call("SCardStatus", self.handle, None, ctypes.byref(name), ctypes.byref(state), ctypes.byref(protocol), room,
                          ctypes.byref(size))
        return room.raw[:size.value]

    def transmit(self, data):
        request, size = Request(self.active.value, ctypes.sizeof(Request)), Dword(LONGEST_ANSWER)
        room = ctypes.create_string_buffer(LONGEST_ANSWER)
        self.service.call("SCardTransmit", self.handle, ctypes.byref(request), data, Dword(len(data)), None, room, ctypes.byref(size))
        return room.raw[:size.value]

    def close(self):
        self.service.call("SCardDisconnect", self.handle, Dword(UNPOWER))
