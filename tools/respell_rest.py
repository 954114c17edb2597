#!/usr/bin/env python3
"""respell_rest: what respell.py leaves. Facts in small letters get a capital, words in capitals that are no facts small letters, and the
aliases of modules that port.py made the spelling of modules. Run once at the top, after respell.py.

A row is a folder or a file, and pairs of an old and a new word; only whole words are taken, and in MeetsQuestions, Refuses and what
imports them `by` only where it stands for the fact and not in a sentence."""
import pathlib
import re

ROWS = [
    ("crates/rules/specs/Refuses.antt", {"by": "By", "in_column": "InColumn"}),
    ("crates/rules/specs/MeetsQuestions.antt", {"by": "By"}),
    ("crates/rules/proofs/Form.antt", {"by": "By", "in_column": "InColumn"}),
    ("crates/rules/proofs/Raw.antt", {"by": "By", "in_column": "InColumn"}),
    ("crates/rules/proofs/Headers.antt", {"by": "By", "in_column": "InColumn"}),
    ("crates/rules/proofs/Order.antt", {"by": "By"}),
    ("crates/rules/proofs/Codes.antt", {"by": "By"}),
    ("crates/rules/proofs/Refuses.antt", {"by": "By", "in_column": "InColumn"}),
    ("crates/codes/proofs/Steps.antt", {"Instrument": "instrument", "Pointed": "pointed"}),
    ("crates/codes/proofs/One.antt", {"Named-by": "NamedBy"}),
    ("crates/dead/proofs/line_dead/Answers.antt", {"inX": "in_x", "from-read": "from_read", "dead-there": "dead_there"}),
    ("crates/fields/proofs/Codes.antt", {"Hours": "hours_fit", "Minutes": "minutes_fit", "Seconds": "seconds_fit"}),
    ("crates/headers/proofs/Laws.antt", {"Here": "here"}),
    ("crates/lines/proofs/One.antt", {"Line-of": "LineOf", "Char-of": "CharOf"}),
    ("crates/receivers/proofs/One.antt", {"All-there": "AllThere"}),
    ("crates/texts/proofs/One.antt", {"add-one": "add_one"}),
    ("crates/traces/proofs/Demands.antt", {"R": "receiver_sheet", "S": "shot_sheet", "X": "relation_sheet"}),
    ("crates/traces/proofs/Ways.antt", {"Reaches": "reached"}),
    ("crates/values/proofs/Signed.antt", {"Less": "less_of", "Below": "reads_below"}),
    ("crates/writer/proofs/Signed.antt", {"Less": "less_of"}),
    ("crates/writer/proofs/Placed.antt", {"W": "width", "T": "text"}),
    ("crates/writer/proofs/Ruled.antt", {"W": "width"}),
    ("crates/writer/proofs/Written.antt", {"Goes": "goes"}),
]
WORD = r"(?<![\w.'₀-₉-])%s(?![\w'₀-₉-])"


def respelt(line, words):
    said = line.strip().startswith("--")
    for old, new in words.items():
        # a comment names a definition in its table, `by B v = ..`; elsewhere it is a sentence
        if old == "by" and said and not re.match(r"\s*--\s+by B v", line):
            continue
        if said and old in ("R", "S", "X"):
            continue
        line = re.sub(WORD % re.escape(old), new, line)
    return line


def main():
    for name, words in ROWS:
        path = pathlib.Path(name)
        if not path.exists():
            print("not there:", name)
            continue
        old = path.read_text()
        new = "\n".join(respelt(line, words) for line in old.split("\n"))
        if new == old:
            print("nothing to respell in", name)
        path.write_text(new)


main()
