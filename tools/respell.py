#!/usr/bin/env python3
"""Respells the names of this repository's definitions and lemmas: words in snake case.

Use: respell.py [DIR]   rewrites, below DIR (default: here), the .antt, .rt and .edit files of crates/, and the names
between backticks in README.md and docs/. Run once, right after the toolchain's own script of the move to a newer kit.
A dash stays where it joins the names of two functions, as in a lemma on the length of some bytes.
"""
import os
import re
import sys

# each dash becomes an underscore
PLAIN = """
after-bit after-false after-gap after-past after-true answer-4 answer-5 answer-fields answer-forth answer-line
answer-only answer-read answer-record answer-row answer-spelt answer-whole at-fault begins-more begins-none bit-here
bit-times bits-0-0101-0-0 bits-0-0101-1-1 bits-even bits-odd blamed-none both-none bytes-more cause-of chain-none
check-by check-laws checked-err checked-ok clean-is-train clean-none clean-proper close-after command-events
command-more command-text control-is cut-here decoded-bad decoded-event decoded-pulse decoded-quiet decoded-says
differ-in digit-is digit-more drop-after drop-empty drop-held drop-slots end-decoded end-says end-word ending-line
ending-text event-lines event-more event-text events-more failure-text fair-check fair-none fair-on fault-laws
fault-more fault-of fault-push faulty-clean faulty-some few-ticks field-text final-is first-fault first-is
first-none first-tells from-slots front-more held-is held-later high-slots holds-is in-slot in-slot-is in-slot-other
in-slot-tells in-slots information-is is-a is-i is-n kind-good lacks-none last-pulse last-slot later-fault
later-push laws-of less-left line-more listed-is longest-closing more-bits next-even next-none next-two nibble-is
no-closing no-control no-information no-nibble no-quiet no-request no-space none-at none-fair none-on not-digits
odd-sum on-tick on-time one-good ones-final only-telegrams opposite-twice or-more or-none parity-even parity-is
part-front part-lt passed-all plain-decimal plain-lacks plain-text positive-is positive-tells proper-clean
pulse-decoded pulse-mv pulse-says put-together quiet-decoded quiet-says request-0-5-9 request-back request-even
request-fields request-forth request-line request-only request-read request-record request-row request-spelt
request-whole rest-cause rest-fault rest-is rest-none rest-row rested-at row-bits row-events same-cut same-height
same-request same-ticks says-decoded script-events script-text sent-events sent-read-back shortest-closing sits-bit
sits-other sits-same slot-distance slot-ticks slots-0-1-3 slots-bit slots-gap slots-past some-found some-none
sound-tight still-out telegram-row telegram-text value-lt window-laws written-words
""".split()

# a name that changes otherwise
OTHER = {
    "getD-none": "get_or-none",
    "getD-words-of": "get_or-words_of",
    "length-words-of": "length-words_of",
    "recordOf": "record_of",
    "rowOf": "row_of",
}

TABLE = {name: name.replace("-", "_") for name in PLAIN} | OTHER
NAME = re.compile(r"(?<![\w'-])(?:" + "|".join(sorted(map(re.escape, TABLE), key=len, reverse=True)) + r")(?![\w'-])")


def respelt(text):
    return NAME.sub(lambda m: TABLE[m.group(0)], text)


def rewrite(path, turn):
    with open(path, encoding="utf-8") as f:
        old = f.read()
    new = turn(old)
    if new != old:
        with open(path, "w", encoding="utf-8") as f:
            f.write(new)


def main():
    root = sys.argv[1] if len(sys.argv) > 1 else "."
    for folder, dirs, files in os.walk(os.path.join(root, "crates")):
        dirs[:] = [d for d in dirs if d != "out"]
        for name in files:
            if name.endswith((".antt", ".rt", ".edit")):
                rewrite(os.path.join(folder, name), respelt)
    pages = [os.path.join(root, "README.md")]
    docs = os.path.join(root, "docs")
    pages += [os.path.join(docs, f) for f in os.listdir(docs) if f.endswith(".md")]
    for page in pages:
        rewrite(page, lambda text: re.sub(r"`[^`\n]+`", lambda m: respelt(m.group(0)), text))


main()
