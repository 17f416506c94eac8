#!/usr/bin/env python3
"""Answers of a selection for crates/bench_select: writes its stdin, and the stdout that it must give.

What is read of each answer stands beside it in crates/bench_select/answers.jsonl, which a program made that was written from the documents
and shares nothing with the proved code. An absent priority indicator and one of 0 are told apart in records, where both are printed as
they stand; of an application the number counts, 0 for none. Run this in the repository's root.
"""
import json

FOLDER = "crates/bench_select/"
WORDS = {"pse": "ENVIRONMENT", "record": "RECORD", "application": "APPLICATION"}


def entry(name, indicator):
    return f" {name.upper()} " + ("-" if indicator is None else f"{indicator:02X}")


def read(line):
    """What is to be printed of an answer."""
    if line["asked"] == "pse":
        return "-" if line["file"] is None else str(line["file"])
    if line["asked"] == "record":
        return "-" if line["entries"] is None else "good" + "".join(entry(*each) for each in line["entries"])
    if line["name"] is None:
        return "-"
    return f"{line['name'].upper()} {line['87'] or 0} {(line['9F38'] or '').upper() or '-'}"


def main():
    with open(FOLDER + "answers.jsonl") as stored:
        lines = [json.loads(line) for line in stored]
    with open(FOLDER + "stdin", "w") as asked, open(FOLDER + "stdout", "w") as told:
        for line in lines:
            asked.write(f"{WORDS[line['asked']]} {line['answer'].upper() or '-'}\n")
            told.write(read(line) + "\n")
    print(f"{len(lines)} answers")


main()
