#!/usr/bin/env python3
"""Lines for crates/hand_answer: writes its stdin, and the stdout that it must give. Run this in the repository's root.

What must be said is written here from 02, R-4, and the sizes that 01 has: an answer goes on whole up to 496 bytes, of a longer one so much that
reason 1 applies to it; where a layer gives no answer there is silence.
"""
FOLDER = "crates/hand_answer/"
SIZES = (0, 1, 2, 3, 257, 258, 259, 260, 495, 496, 497, 498, 514, 4353, 4354)


def pattern(size):
    return bytes((7 * i + size) % 256 for i in range(size)).hex().upper()


def main():
    pairs = []
    for size in SIZES:
        for word in ("ANSWER", "MESSAGE"):
            digits = pattern(size)
            pairs.append((f"{word} {digits}", "ANSWER " + (digits if size <= 496 else digits[:2 * 259])))
    pairs += [("ANSWER", "ANSWER "), ("answer 9000", "ERROR unknown word"), ("ANSWER 9a0f", "ANSWER 9A0F")]
    pairs += [(f"REFUSED {name}", "SILENCE") for name in ("BYTE", "MANY-60", "NOT-DUE")]
    pairs += [(f"END {name}", "SILENCE") for name in ("LIMIT", "ABORT", "SILENCE")]
    pairs += [("ANSWER 900", "ERROR not whole bytes in hexadecimal"), ("ANSWER 90 00", "ERROR not whole bytes in hexadecimal")]
    pairs += [("WAIT procedure", "ERROR unknown word"), ("", "ERROR unknown word"), ("ANSWER " + "00" * 4497, "ERROR line too long")]
    for name, texts in zip(("stdin", "stdout"), zip(*pairs)):
        with open(FOLDER + name, "w") as out:
            out.writelines(text + "\n" for text in texts)


main()
