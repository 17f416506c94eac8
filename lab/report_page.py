"""A report as one HTML file: no script, nothing fetched. All text from outside goes through `safe`."""
import html

from lab import report_explained, report_strips, report_tapes, report_words
from lab.report_style import HEAD, STYLE
from lab.verdicts import VERDICTS
from lab.words import text

LONGEST_NAME = 120
# So many tapes that could not be judged, or not explained, are named, and so many terminals have a row of their own.
LISTED_ERRORS, NAMED, ROWS = 200, 20, 200
TITLES = {"FAIL": "Failures, by what was due and what stood there", "INCONCLUSIVE": "Unfinished, by what was waited for",
          "UNREADABLE": "Damaged, by code"}


def safe(words):
    """Text from outside: what cannot be seen is written out, and nothing is taken for HTML."""
    seen = "".join(c if c.isprintable() else f"\\x{ord(c):02x}" if ord(c) < 256 else f"\\u{ord(c):04x}" for c in words)
    return html.escape(seen, quote=True)


def name(data):
    """A name, which may be bytes; of a long one its beginning and its end."""
    words = text(data)
    if len(words) > LONGEST_NAME:
        words = f"{words[:40]} … {words[-70:]} ({len(data):,} bytes)"
    return safe(words)


def tapes_word(count):
    return f"{count:,} tape{'' if count == 1 else 's'}"


def cards(counts):
    made = "".join(f'<div class="card {verdict}">{report_strips.swatch(verdict)}<b>{counts[verdict]:,}</b><span>{verdict}</span>'
                   f'<p>{report_words.MEANINGS[verdict]}</p></div>' for verdict in VERDICTS)
    return f'<div class="cards">{made}</div>{report_strips.bar(counts)}'


def evidence_box(counts):
    """Clause 9 of the lab's contract (00)."""
    count = counts["INCONCLUSIVE"] + counts["UNREADABLE"]
    if not count:
        return ""
    are, they, until = ("is", "It counts", "it is") if count == 1 else ("are", "They count", "they are")
    return (f'<div class="box"><b>{tapes_word(count)} {are} evidence for nothing.</b> Clause 9: absence of failure shall not be evidence. '
            f"{they} for no terminal until {until} recorded again.</div>")


def error_box(night):
    """The tapes that could not be judged: each line of them counts, also where the tape was judged later."""
    if not night.errors:
        return ""
    count, left = len(night.errors), len(night.errors) - night.settled
    said = [f"<b>{count:,} time{'' if count == 1 else 's'} a tape could not be judged.</b>"]
    if night.settled:
        said.append(f"{night.settled:,} of them came to a verdict under the same name in a later line.")
    if left:
        said.append(f"{left:,} did not: no verdict is known, and nothing below speaks of these tapes.")
    rows = "".join(f"<li>{name(line.name)}: {safe(line.error[:300])}</li>" for line in night.errors[:LISTED_ERRORS])
    return (f'<div class="box strong">{" ".join(said)}<details><summary>which, and why</summary><ul>{rows}</ul>'
            f"{more(count, LISTED_ERRORS)}</details></div>")


def missing_box(names, expected):
    """What is said where the list has not as many tapes as there must be."""
    if expected is None or names == expected:
        return ""
    few = f"{tapes_word(expected - names)} of {expected:,} not in this list."
    return (f'<div class="box strong"><b>{few if names < expected else tapes_word(names - expected) + " too many."}</b> There must be '
            f"{expected:,}, and the list has {names:,}: what is said here is not said of the whole night.</div>")


def more(count, listed):
    return f'<p class="more">and {count - listed:,} more, which stand in the list of findings</p>' if count > listed else ""


def notes_box(night):
    """What else must be known of the list: disputes, changed files, copies, zeros."""
    parts = []
    for lines in night.disputed[:20]:
        said = "; ".join(f"{report_words.where(line)} (judge {safe(line.judge[:80])})" for line in lines)
        parts.append(f"<li><b>The same bytes were judged differently:</b> {name(lines[0].name)}: {said}. The worst counts.</li>")
    if len(night.disputed) > 20:
        parts.append(f"<li>{len(night.disputed) - 20:,} more tapes were judged differently; the worst counts.</li>")
    if night.changed:
        shown = ", ".join(name(one) for one in night.changed[:10]) + (", …" if len(night.changed) > 10 else "")
        parts.append(f"<li>{len(night.changed):,} name{'' if len(night.changed) == 1 else 's'} had other bytes when the file was judged "
                     f"again: each of these tapes counts by itself. {shown}</li>")
    if night.copies:
        have = "has" if night.copies == 1 else "have"
        parts.append(f"<li>{tapes_word(night.copies)} {have} the very bytes of another tape of this list: counted, and no evidence beside "
                     "it.</li>")
    zeros = [tape.zeros for tape in night.tapes if tape.zeros]
    if zeros:
        parts.append(f"<li>In {tapes_word(len(zeros))} the terminal filled {sum(zeros):,} entries of the card's lists with zeros, having "
                     "no value for them.</li>")
    return f'<div class="box plain"><ul>{"".join(parts)}</ul></div>' if parts else ""


# What is said of tapes that should have been explained and are not.
NOT_EXPLAINED = {report_explained.CHANGED: "changed since judged. What the list says of the judged bytes stands, and is not explained",
                 report_explained.OTHERWISE: "judged otherwise here, with the very same bytes. What the list says is not explained",
                 report_explained.UNABLE: "not explained, and the file is there"}


def explained_box(explained):
    """Where something is wrong with tapes that are listed, and where they are gone."""
    if explained is None:
        return ""
    parts = []
    for kind, words in NOT_EXPLAINED.items():
        found = explained.of(kind)
        rows = "".join(f"<li>{name(one)}: {safe(why[:300])}</li>" for one, why in found[:NAMED]) + ("<li>…</li>" if found[NAMED:] else "")
        if found:
            parts.append(f"<p><b>{tapes_word(len(found))} of those listed below:</b> {words}.</p><ul>{rows}</ul>")
    wrong, gone = f'<div class="box strong">{"".join(parts)}</div>' if parts else "", explained.count(report_explained.GONE)
    if not gone:
        return wrong
    return wrong + (f'<div class="box plain">{tapes_word(gone)} of those listed below: no file where the list names one, so nothing is '
                    "explained of these. Their lines are the list's.</div>")


def row(label, tapes, errors, most, with_errors):
    counts = report_tapes.counts(tapes)
    numbers = "".join(f'<td class="n {verdict if counts[verdict] else "none"}">{counts[verdict]:,}</td>' for verdict in VERDICTS)
    numbers += f'<td class="n">{errors:,}</td>' if with_errors else ""
    empty = "" if counts["PASS"] or counts["FAIL"] else "<small>no evidence of any kind</small>"
    lanes = "<br>".join(verdict[0] for verdict in report_strips.LANES)
    return (f'<tr><th scope="row">{label}{empty}</th><td><div class="lanes"><span>{lanes}</span>'
            f"{report_strips.strip(tapes, most, counts)}</div></td>{numbers}</tr>")


def terminals_table(terminals, with_errors):
    shown, rest = terminals[:ROWS], terminals[ROWS:]
    most = report_strips.columns_each(len(shown) + bool(rest))
    rows = [row(name(one.name), one.tapes, one.errors, most, with_errors) for one in shown]
    if rest:
        label = f"{len(rest):,} more terminals together, one after the other"
        rows.append(row(label, [tape for one in rest for tape in one.tapes], sum(one.errors for one in rest), most, with_errors))
    heads = "".join(f'<th scope="col" class="n">{head}</th>' for head in ("PASS", "FAIL", "INC.", "UNR.", *["not judged"] * with_errors))
    largest = max(len(one.tapes) for one in terminals)
    note = "A column is one tape."
    if largest > most or rest:
        note = "Where there are many, a column stands for several tapes, and is the higher the more of them have the verdict."
    places = [f"lane {verdict[0]}" if verdict in report_strips.LANES else "the pale ground" for verdict in VERDICTS]
    legend = "".join(f"<span>{report_strips.swatch(verdict)}{verdict}, {place}</span>" for verdict, place in zip(VERDICTS, places))
    return (f'<h2>Terminals, the worst first</h2><p class="legend">{legend}</p><table class="terminals"><thead><tr>'
            f'<th scope="col">Terminal</th><th scope="col">Tapes, first to last. <small>{note}</small></th>{heads}</tr></thead>'
            f"<tbody>{''.join(rows)}</tbody></table>")


def tape_lines(tape, with_cause, explained):
    """One tape where its group is opened: explained, or what the list says of it, and why no more."""
    session = "" if tape.session is None else f", session {tape.session}"
    cause = f": {safe(report_words.cause(tape))}" if with_cause else ""
    head = f"<li><b>{name(tape.name)}</b> <small>{report_words.where(tape)}{session}, sha256 {tape.sha256[:16]}…{cause}</small>"
    told = explained and explained.told.get(report_explained.key(tape))
    if told and told.lines:
        lines = "\n".join(f"<b>{safe(line)}</b>" if marked else safe(line) for line, marked in told.lines)
        return f'{head}<code class="whole">{lines}</code></li>'
    made = []
    for label, pieces in [*report_words.in_line(tape), *([("unexplained", [(told.why[:150], False)])] if told else [])]:
        shown = " ".join(f"<mark>{safe(piece)}</mark>" if marked else safe(piece) for piece, marked in pieces)
        made.append(f"<div><i>{label}</i> <code>{shown}</code></div>")
    return f"{head}{''.join(made)}</li>"


def top_terminals(tapes, named):
    found = {}
    for tape in tapes:
        found[named[tape.name]] = found.get(named[tape.name], 0) + 1
    first = sorted(found.items(), key=lambda one: (-one[1], one[0]))
    return ", ".join(f"{name(one)} ({count:,})" for one, count in first[:3]) + (f", {len(first) - 3:,} more" if len(first) > 3 else "")


def without_room(tapes, explained):
    """How many of the tapes of a list were not explained since a report has room for so many."""
    left = sum(report_explained.key(tape) not in explained.told for tape in tapes) if explained else 0
    said = f"{left:,} of those listed here are told from the list alone, for want of room; bin/explain says more of each"
    return f'<p class="more">{said}</p>' if left else ""


def group_lists(verdict, groups, named, explained):
    """The groups of a verdict, each to be opened."""
    if not groups:
        return ""
    made = []
    for group, listed in groups:
        tapes, count = "".join(tape_lines(tape, group.mixed, explained) for tape in listed), len(group.tapes)
        made.append(f'<details class="group {verdict}"><summary><b>{count:,}</b> {safe(group.words)}'
                    f"<small>{top_terminals(group.tapes, named)}</small></summary><ul>{tapes}</ul>{without_room(listed, explained)}"
                    f"{more(count, len(listed))}</details>")
    return f"<h2>{TITLES[verdict]}</h2>{''.join(made)}"


def foot(told):
    """Where all of it comes from: pairs of a label and lines."""
    rows = "".join(f'<tr><th scope="row">{label}</th><td>{"<br>".join(safe(line) for line in lines)}</td></tr>' for label, lines in told)
    return f'<h2>Where this comes from</h2><table class="foot"><tbody>{rows}</tbody></table>'


def page(title, night, by, told, opened, explained=None, expected=None):
    """The whole file, as bytes. `opened` are the groups with the tapes that are listed, `explained` what came of these where they were
    looked at, `expected` how many tapes there must be where that is known."""
    terminals, named = report_tapes.terminals(night, by)
    counts = report_tapes.counts(night.tapes)
    of = f"{tapes_word(len(night.tapes))} of {len(terminals):,} terminal{'' if len(terminals) == 1 else 's'}"
    body = [f'<h1>{safe(title)}</h1><p class="sub">{of}</p>', report_strips.PATTERNS, cards(counts), missing_box(len(named), expected),
            evidence_box(counts), error_box(night), explained_box(explained), notes_box(night),
            terminals_table(terminals, bool(night.errors))]
    body += [group_lists(verdict, groups, named, explained) for verdict, groups in opened.items()]
    head = f"{HEAD}<title>{safe(title)}</title>\n<style>{STYLE}</style>\n</head>\n"
    return "\n".join([head + "<body>", *filter(None, body), foot(told), "</body>\n</html>\n"]).encode()
