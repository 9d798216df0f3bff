#!/usr/bin/env python3
"""Makes pages of what the sources say, which no document keeps: HTML with an index.

    make.py                makes the pages in out/pages, and prints where the index is
    make.py --to FOLDER    makes them there
    make.py --check        makes none, and says how many there would be; status 1 where a file or a public item has no comment

A crate's page has its public types and calls, each with its comment and its contract; its files, each with its first sentence; and the names of
its lemmas. The page of definitions has those that a public contract reaches, which a reader must believe, with their comments.
"""

import argparse
import html
import os
import re
import sys

sys.path.insert(0, os.path.dirname(os.path.abspath(__file__)))
import calls
import definitions
import rooms

ROOT = rooms.ROOT
STYLE = """body { font: 16px/1.5 sans-serif; max-width: 75em; margin: 2em auto; padding: 0 1em; color: #222; }
pre { background: #f6f6f4; padding: 0.6em; overflow-x: auto; } code, pre { font-size: 14px; } h3 { margin-bottom: 0.2em; }
td { vertical-align: top; padding: 0.1em 1em 0.1em 0; } a { color: #245; }"""
LEMMA = re.compile(r"^ *pub (\S+) :", re.MULTILINE)


def marked(text):
    """A text of a comment as HTML: what stands between back ticks is code."""
    return re.sub(r"`([^`]+)`", r"<code>\1</code>", html.escape(text, quote=False))


def code(lines):
    return "<pre>%s</pre>" % html.escape("\n".join(lines), quote=False)


def page(title, *parts):
    """A whole page."""
    head = '<!doctype html>\n<html lang="en"><head><meta charset="utf-8"><title>%s</title><style>%s</style></head>\n<body>\n' % (title, STYLE)
    return head + "<h1>%s</h1>\n%s\n</body></html>\n" % (title, "\n".join(filter(None, parts)))


def paragraphs(comment):
    """The paragraphs of a comment."""
    return "".join("<p>%s</p>" % marked(" ".join(part.split())) for part in "\n".join(comment).split("\n\n") if part.strip())


def items(title, found):
    """A section of public items, each with its comment and its contract."""
    shown = ("<h3><code>%s</code></h3>%s%s" % (it.place().partition("::")[2], paragraphs(it.comment), code(it.head) if it.head else "") for it in found)
    return "<h2>%s</h2>%s" % (title, "".join(shown)) if found else ""


def files(crate, folder):
    """A section of the files of a folder, each with its first sentence, and with the names of its lemmas."""
    rows = []
    for path, place, told in rooms.files_of(crate, folder):
        names = ", ".join(LEMMA.findall(definitions.read(path))) if folder[0] == "proofs" else ""
        lemmas = "<br><small><code>%s</code></small>" % html.escape(names) if names else ""
        rows.append("<tr><td><code>%s</code></td><td>%s%s</td></tr>" % (place, marked(told or ""), lemmas))
    return "<h2>%s, in <code>%s/</code></h2><table>%s</table>" % (folder[3], folder[0], "".join(rows)) if rows else ""


def blocks(path):
    """The blocks of a file of definitions that an empty line ends: each with its comment and its other lines."""
    for block in re.split(r"\n\s*\n", definitions.read(path)):
        lines = block.splitlines()
        said = [line.strip()[2:].strip() for line in lines if line.strip().startswith("--")]
        yield said, [line for line in lines if line.strip() and not line.strip().startswith("--")]


def believed():
    """For each file of definitions, its path, its crate and place, and the names in it that a public contract reaches."""
    specs, contracts = definitions.Specs(), definitions.Code().contracts()
    reached = specs.reached([it for is_public, *it in contracts if is_public])
    for at, file in specs.files.items():
        names = [name for name in file.definitions() if (at, name) in reached]
        if names:
            yield os.path.join(ROOT, "crates", at[0], "specs", at[1] + ".antt"), at, names, len(file.definitions())


def page_of_definitions():
    """The definitions that a reader must believe."""
    parts, many = [], 0
    for path, at, names, count in believed():
        many += len(names)
        parts.append("<h2><code>%s/specs/%s</code></h2><p>%d of %d definitions are reached.</p>" % (*at, len(names), count))
        for said, lines in blocks(path):
            words = set(re.split(r"[\s(){}:;,]+", " ".join(lines[:1] + [line for line in lines if not line.startswith(" ")])))
            if lines and words & set(names) or said and not lines:
                parts.append(paragraphs(said) + (code(lines) if lines else ""))
    said = "<p>%d definitions, and what they name of the standard library, are what the public contracts mean. The others serve private calls or proofs.</p>"
    return page("The definitions that a reader must believe", said % many, *parts)


def pages():
    """All pages, by their names."""
    found, made = calls.public_items(), {"definitions.html": page_of_definitions()}
    for crate in rooms.crates():
        types = items("Types", [it for it in found.get(crate, []) if it.kind != "fn"])
        functions = items("Calls", [it for it in found.get(crate, []) if it.kind == "fn"])
        made[crate + ".html"] = page(crate, '<p><a href="index.html">All pages</a></p>', types, functions, *(files(crate, it) for it in rooms.FOLDERS))
    links = "".join('<li><a href="%s">%s</a></li>' % (name, name.removesuffix(".html")) for name in made)
    said = "<p>These pages are made of the sources. <code>docs/MAP.md</code> says what each crate is for.</p>"
    return {"index.html": page("Rilgomut", said, "<ul>%s</ul>" % links), **made}


def without_comment():
    """What has no comment: files and public items."""
    yield from (path for crate in rooms.crates() for it in rooms.FOLDERS for path, _, told in rooms.files_of(crate, it) if told is None)
    yield from (it.place() for of in calls.public_items().values() for it in of if not it.comment)


def main():
    words = argparse.ArgumentParser(description=__doc__, formatter_class=argparse.RawDescriptionHelpFormatter)
    words.add_argument("--to", metavar="FOLDER", default=os.path.join(ROOT, "out", "pages"), help="where the pages are made")
    words.add_argument("--check", action="store_true", help="makes no file; status 1 where a comment is missing")
    asked = words.parse_args()
    made = pages()
    if asked.check:
        missing = list(without_comment())
        print("\n".join([*("%s has no comment" % it for it in missing), "%d pages, %d comments are missing" % (len(made), len(missing))]))
        return 1 if missing else 0
    os.makedirs(asked.to, exist_ok=True)
    for name, text in made.items():
        with open(os.path.join(asked.to, name), "w") as out:
            out.write(text)
    print(os.path.join(asked.to, "index.html"))
    return 0


if __name__ == "__main__":
    sys.exit(main())
