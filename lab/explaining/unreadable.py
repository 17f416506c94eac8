"""An unreadable tape: the test that its code stands for, what is there, and what would be right (01, "The tape"; 02, R-7, R-8)."""
import zlib

from lab import kinds
from lab.explaining.parts import count
from lab.files import BLOCK

MOST_BLOCKS, MOST_PAYLOAD = 1024, 496
TESTS = {1: "longer than a tape can be", 2: "not a multiple of 512 bytes", 3: "check (CRC-32)", 4: "block number", 5: "session number",
         6: "kind", 7: "byte 9", 8: "length of the payload", 9: "a byte after the payload"}


def there(code, block, first, place, size):
    """What is there and what would be right, in words; None where the display does not see what the code says."""
    if code == 1:
        most = MOST_BLOCKS * BLOCK
        return (f"{size:,} bytes", f"at most {most:,} bytes, {MOST_BLOCKS:,} blocks") if size > most else None
    if code == 2:
        whole, rest = divmod(size, BLOCK)
        said = f"{count(size, 'byte')}: {count(whole, 'whole block')} and {count(rest, 'byte')}"
        return (said, "whole blocks of 512 bytes") if rest else None
    return fields(code, block, first, place) if len(block) == BLOCK else None


def fields(code, block, first, place):
    stored, found = int.from_bytes(block[508:], "big"), zlib.crc32(block[:508])
    number, session = (int.from_bytes(block[at:at + 4], "big") for at in (0, 4))
    own, length = int.from_bytes(first[4:8], "big"), int.from_bytes(block[10:12], "big")
    behind = next((k for k in range(12 + min(length, MOST_PAYLOAD), 508) if block[k]), None)
    told = {
        3: (stored != found, f"the stored check is {stored:08X}", f"bytes 0 to 507 give {found:08X}"),
        4: (number != place, f"the block calls itself {number}", f"{place}"),
        5: (session != own, f"the block is of session {session}", f"session {own}, as block 0 is"),
        6: (block[8] not in kinds.NUMBERS, f"kind {block[8]}", f"a kind from 1 to {kinds.NUMBERS[-1]}"),
        7: (block[9] != 0, f"byte 9 is {block[9]:02X}", "00"),
        8: (length > MOST_PAYLOAD, f"a payload of {length} bytes", f"at most {MOST_PAYLOAD}"),
        9: (behind is not None, f"byte {behind} is {block[behind or 0]:02X}, behind a payload of {count(length, 'byte')}", "00"),
    }
    fails, said, right = told.get(code, (False, "", ""))
    return (said, right) if fails else None
