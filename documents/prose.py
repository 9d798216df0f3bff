#!/usr/bin/env python3
"""How long the documents and their sentences are, and which words are better left out.

`python3 documents/prose.py` prints for the README and each document of docs/ and bench/ how many words and sentences it has, how many words one has in
the mean, the longest ones, and how often words stand in it that say little: 'comes to', 'is said', 'so many', 'what .. is' at the beginning of a
sentence, and two negations in one. Code and headings don't count, and cells of tables count for those words alone. With `--check` it ends with
status 1 where a mean is above 22 words, a sentence has more than 45, or all documents have more than 45,000.
"""

import argparse
import glob
import os
import re
import sys

ROOT = os.path.dirname(os.path.dirname(os.path.abspath(__file__)))
DOCUMENTS = ["README.md", *sorted(glob.glob("docs/*.md", root_dir=ROOT)), *sorted(glob.glob("bench/*.md", root_dir=ROOT))]

MOST_IN_MEAN, MOST, MOST_IN_ALL = 22, 45, 45_000

# What isn't prose: code, tables, headings, and links' places.
LEFT_OUT = re.compile(r"```[\s\S]*?```|^\|.*$|^#.*$|^    .*$", re.MULTILINE)
SENTENCE = re.compile(r"(?<=[.!?:;])(?:[\"')*_`]*)\s+(?=[\"'(*_`]*[A-Z0-9`])|\n\s*(?:[-*]|\d+\.)\s+|\n\s*\n")

WORDS = {
    "comes to": re.compile(r"\bcomes? to\b|\bcame to\b"),
    "is said": re.compile(r"\b(?:is|are|was) said\b"),
    "so many": re.compile(r"\bso many\b"),
    "what .. is": re.compile(r"^What\b"),
    "two negations": re.compile(r"\b(?:no|not|nothing|never|none|\w+n't)\b.*\b(?:no|not|nothing|never|none|\w+n't)\b"),
}


def sentences(text):
    """The sentences of a document, each with its words in one line."""
    found = [" ".join(one.split()) for one in SENTENCE.split(LEFT_OUT.sub("\n\n", text))]
    return [one for one in found if len(one.split()) > 2]


def cells(text):
    """The cells of a document's tables that have more than two words."""
    rows = re.findall(r"^\|(.*)\|$", re.sub(r"```[\s\S]*?```", "", text), re.MULTILINE)
    return [cell.strip() for row in rows for cell in row.split("|") if len(cell.split()) > 2]


def tell(path, longest):
    """Prints what is told of a document, and answers how many words it has and whether it is within the bounds."""
    with open(os.path.join(ROOT, path)) as given:
        text = given.read()
    found = sentences(text)
    lengths = [len(one.split()) for one in found]
    mean = sum(lengths) / max(len(lengths), 1)
    words = ", ".join("%s %d" % (name, count) for name, count in ((name, sum(bool(word.search(one)) for one in [*found, *cells(text)])) for name, word in WORDS.items()) if count)
    over = sum(length > MOST for length in lengths)
    many = len(text.split())
    print("%s: %d words, %d sentences, %.1f words in the mean, %d over %d; %s" % (path, many, len(found), mean, over, MOST, words or "none of the words"))
    for one in sorted(found, key=lambda one: -len(one.split()))[:longest]:
        print("  %d: %s" % (len(one.split()), one[:160]))
    return many, mean <= MOST_IN_MEAN and not over


def main():
    words = argparse.ArgumentParser(description=__doc__, formatter_class=argparse.RawDescriptionHelpFormatter)
    words.add_argument("--longest", type=int, default=0, help="how many of the longest sentences of each document are printed")
    words.add_argument("--check", action="store_true", help="status 1 where a document isn't within the bounds")
    asked = words.parse_args()
    told = [tell(path, asked.longest) for path in DOCUMENTS]
    total = sum(many for many, _ in told)
    print("%d words in all" % total)
    sys.exit(1 if asked.check and (total > MOST_IN_ALL or not all(is_within for _, is_within in told)) else 0)


if __name__ == "__main__":
    main()
