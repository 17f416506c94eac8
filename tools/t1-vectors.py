#!/usr/bin/env python3
"""Sessions for crates/exchange_t1: writes its stdin, and the stdout that it must give. Run this in the repository's root.

The vectors of crates/exchange_t1/t1.jsonl come from outside: blocks with what is wrong with them, messages cut into blocks, and events
at one end of a line with what it does after each. Those of crates/exchange_t1/asking.jsonl are sessions that reference/ made (seed 20261119): cards
that have asked three times for a size, and remain in receive mode. Here they are only put into the words of the program.
"""
import json

FOLDER = "crates/exchange_t1/"
STORED = (FOLDER + "t1.jsonl", FOLDER + "asking.jsonl")


def block(case):
    """TEST, and what the block says or which test it fails."""
    expect = case["expect"]
    asked = f"TEST {case['ifs']} {case['block'].upper()}"
    if not expect["valid"]:
        return [asked], [f"INVALID {expect['code']} {expect['why']}"]
    if expect["kind"] == "I":
        says = f"I {expect['number']} {expect['more']}"
    elif expect["kind"] == "R":
        says = f"R {expect['number']} {expect['err']}"
    else:
        says = f"S {expect['type']} {'response' if expect['response'] else 'request'}"
    return [asked], [f"VALID {says} INF {expect['inf'][0]} {expect['inf'][1]}"]


def cut(case):
    """CUT, and the blocks."""
    return [f"CUT {case['ifs']} {case['number']} {case['message'].upper()}"], [f"SEND {b.upper()}" for b in case["expect"]]


def state(phase, ns, nr, out, own):
    return f"STATE {phase} {ns} {nr} {out} {own}"


def session(case):
    """An end at the beginning, then each event."""
    out, own = case["ifs_out"], case["ifs_in"]
    card = case["role"] == "card"
    told = [f"CARD {out} {own}" if card else f"TERMINAL {out}"]
    said = [state("LISTEN" if card else "START", 0, 0, out, own)]
    for event, expect in zip(case["events"], case["expect"]):
        told.append(" ".join(str(word).upper() for word in event))
        if "inf" in expect:
            said.append(f"INF {expect['inf'][0]} {expect['inf'][1]}")
        for word, key in (("SEND", "send"), ("MESSAGE", "message"), ("END", "end"), ("REFUSED", "refusal")):
            if key in expect:
                said.append(f"{word} {expect[key].upper()}")
        said.append(state(*(expect[key] for key in ("phase", "ns", "nr", "ifs_out", "ifs_in"))))
    return told, said


KINDS = {"t1.block": block, "t1.cut": cut, "t1.session": session}


def lines(cases):
    """What the program is told, and what it must say."""
    told, said = [], []
    for case in cases:
        more = KINDS[case["kind"]](case)
        told += more[0]
        said += more[1]
    return told, said


def main():
    cases = []
    for name in STORED:
        with open(name) as stored:
            cases += [json.loads(line) for line in stored]
    told, said = lines(cases)
    for name, rows in (("stdin", told), ("stdout", said)):
        with open(FOLDER + name, "w") as out:
            out.write("".join(row + "\n" for row in rows))


if __name__ == "__main__":
    main()
