#!/usr/bin/env python3
"""Graphs of what `why` answers.

    rilgomut --json TEXT | python3 tools/dot.py > GRAPH.dot
    rilgomut --json TEXT | python3 tools/dot.py --svg GRAPH.svg

It reads lines of JSON, as `rilgomut --json` prints them, from the standard input, and writes a graph for graphviz, with a part for each
answer to `why`. A step of a derivation is a node with its goal and by what that holds; an edge leads to it from each step that it rests on.
Of goals that were asked for each is a node with what it came to. Why two impls overlap, or don't, is one node with its lines. Other lines are passed
over. With `--svg` it has `dot` of graphviz draw the graph into
the file. The status is 1 where no line answers `why`, where a line is no object of JSON or has too deep a type for this reader, and where there is no `dot`.
"""

import argparse
import json
import subprocess
import sys

# The colour of a node, by what its goal came to; a step of a derivation is a yes.
COLOURS = {"yes": "palegreen", "maybe": "khaki", "refused": "lightpink"}


def spelled(tree):
    """The words of a type or a reference."""
    words, left = [], [tree]
    while left:
        node = left.pop()
        if isinstance(node, str):
            words.append(node)
            continue
        words += node.get("qualifiers", []) + [node["head"]]
        words += [node["region"]] if "region" in node else []
        words += [".."] if node.get("cut") else []
        left += reversed(node.get("args", []))
    return " ".join(words)


def goal_of(reason):
    """The goal of a step, or one that was asked for."""
    return ("- " if reason.get("is_negative") else "") + spelled(reason["goal"])


def source_of(step):
    """By what the goal of a step holds."""
    further = [str(step[key]) for key in ("impl", "supertrait", "kind") if key in step]
    return " ".join([step["source"], *further])


def verdict_of(goal):
    """What a goal that was asked for came to."""
    words = [goal["answer"]] + ([goal["via"]] if "via" in goal else [])
    if "round" in goal:
        words += ["after round", str(goal["round"])]
    if "because" in goal:
        words += ["because", goal["because"]]
    return " ".join(words)


def values_of(reason):
    """What the variables of a goal stand for, a line each."""
    return ["%s = %s" % (value["variable"], spelled(value["type"])) for value in reason.get("with", [])]


def quoted(lines):
    """A text of these lines, as a graph has it."""
    return '"%s"' % "\\n".join(line.replace("\\", "\\\\").replace('"', '\\"') for line in lines)


def part_of(answer, place):
    """The lines of a graph for an answer to `why`, which is the one of that place."""
    steps = answer.get("steps", [])
    title = "line %d: %s" % (answer["line"], answer["text"].split("\n")[0])
    yield "  subgraph cluster_%d {" % place
    yield "    label=%s;" % quoted([title])
    for reason in steps + answer.get("goals", []):
        is_step = "source" in reason
        said = source_of(reason) if is_step else verdict_of(reason)
        label = quoted(["%d  %s" % (reason["number"], goal_of(reason)), said, *values_of(reason)])
        colour = COLOURS.get("yes" if is_step else reason["answer"], "white")
        yield "    n%d_%d [label=%s, fillcolor=%s];" % (place, reason["number"], label, colour)
    for step in steps:
        for before in step["from"]:
            yield "    n%d_%d -> n%d_%d;" % (place, before, place, step["number"])
    if "more" in answer:
        yield "    more%d [label=%s, fillcolor=white, shape=note];" % (place, quoted([line.strip() for line in answer["more"]]))
    yield "  }"


def graph_of(answers):
    """The graph of these answers."""
    lines = ["digraph why {", '  node [shape=box, style=filled, fontname="monospace"];']
    for place, answer in enumerate(answers):
        lines += part_of(answer, place)
    return "\n".join([*lines, "}", ""])


def read_answers(lines):
    """The answers to `why` among these lines of JSON."""
    found = [json.loads(line) for line in lines if line.strip()]
    if not all(isinstance(answer, dict) for answer in found):
        raise ValueError("it is no object")
    return [answer for answer in found if answer.get("query") == "why" and not answer.keys().isdisjoint(("steps", "goals", "more"))]


def draw(graph, path):
    """Draws the graph into a file."""
    try:
        drawn = subprocess.run(["dot", "-Tsvg", "-o", path], input=graph.encode())
    except FileNotFoundError:
        sys.exit("there is no `dot` here: graphviz has it")
    if drawn.returncode:
        sys.exit("dot ends with status %d" % drawn.returncode)


def main():
    words = argparse.ArgumentParser(description=__doc__, formatter_class=argparse.RawDescriptionHelpFormatter)
    words.add_argument("--svg", metavar="FILE", help="have graphviz draw the graph into this file")
    asked = words.parse_args()
    try:
        answers = read_answers(sys.stdin)
    except ValueError as error:
        sys.exit("a line is no object of JSON: %s" % error)
    except RecursionError:
        sys.exit("a line has a type that is nested too deep for this reader")
    if not answers:
        sys.exit("no line answers `why`")
    if asked.svg:
        draw(graph_of(answers), asked.svg)
    else:
        sys.stdout.write(graph_of(answers))


if __name__ == "__main__":
    main()
