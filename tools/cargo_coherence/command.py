"""`cargo coherence`: all steps, from the command line to the status."""

import argparse
import atexit
import gc
import json
import os
import sys
from typing import Callable, List, Optional

from cargo_coherence.ask.asking import Answer
from cargo_coherence.ask.goals import BadGoal
from cargo_coherence.ask.program import find_program
from cargo_coherence.from_rustdoc.cargo_json import Made, Workspace, make_all
from cargo_coherence.from_rustdoc.rust_json import Unreadable
from cargo_coherence.from_rustdoc.toolchain import StepFailed, find_toolchain, std_json
from cargo_coherence.kept import Kept
from cargo_coherence.options import find_manifest, options_of, request_of
from cargo_coherence.run import Read, Result, result_of, tell
from cargo_coherence.verdict.diagnostics import UNDECIDED, Diagnostic
from cargo_coherence.verdict.output import Output, output_of, read_baseline, write_baseline


class Command:
    """One run."""

    def __init__(self, options: argparse.Namespace) -> None:
        self.options = options
        self.kept = Kept(options.cache)
        self.is_watched = sys.stderr.isatty() and not options.quiet

    def run(self) -> int:
        """All steps. Answers the status; raises `StepFailed`, `Unreadable` or `BadGoal`."""
        options = self.options
        manifest = find_manifest(options.manifest_path, os.getcwd())
        if manifest is None:
            raise StepFailed("%s: no Cargo.toml there" % (options.manifest_path or "this folder and those above it"))
        baseline = read_baseline(options.baseline)
        toolchain = find_toolchain()
        std = std_json(toolchain, options.std, options.cache)
        program = find_program(options.program, options.cache)
        workspace = Workspace(request_of(options, manifest), toolchain)
        units = workspace.units()
        made = make_all(workspace, units, options.cache, self._watch)
        if options.goals or options.why_overlap:
            return self._ask(next(made), std, program)
        output = output_of(options)
        counted = [self._told(self._result(one, std, program), baseline, output) for one in made]
        return self._end(output, counted)

    def _watch(self, crate: str) -> None:
        if self.is_watched:
            tell("     Reading %s" % crate)

    def _read(self, made: Made, std: str) -> Read:
        read = Read(made, std, self.kept, self.options.any_format)
        if self.options.verbose or self.options.unsaid:
            for line in read.told():
                tell(line)
        if self.options.unsaid:
            read.report.tell(False)
        if self.options.text:
            with open(self.options.text, "w", encoding="utf-8") as file:
                file.write(read.text)
        return read

    def _result(self, made: Made, std: str, program: str) -> Result:
        if not self.options.quiet:
            tell("    Checking %s" % made.local.told())
        is_told = self.options.verbose or self.options.unsaid or self.options.text
        read = self._read(made, std) if is_told else None
        return result_of(made, std, program, self.kept, self.options.all_crates, lambda: read or self._read(made, std))

    def _told(self, result: Result, baseline: List[str], output: Output) -> List[Diagnostic]:
        """Prints what isn't in the baseline, and answers it."""
        found = [diagnostic for diagnostic in result.diagnostics if diagnostic.key not in baseline]
        for diagnostic in found:
            output.tell(result, diagnostic)
        return found

    def _end(self, output: Output, counted: List[List[Diagnostic]]) -> int:
        found = [diagnostic for diagnostics in counted for diagnostic in diagnostics]
        if self.options.write_baseline:
            write_baseline(self.options.write_baseline, found)
        is_refused = any(diagnostic.level == "error" or self._is_denied(diagnostic) for diagnostic in found)
        output.end(not is_refused)
        if not self.options.quiet:
            tell("    Finished: %s" % sum_of(found))
        return 1 if is_refused and not self.options.write_baseline else 0

    def _is_denied(self, diagnostic: Diagnostic) -> bool:
        words = {UNDECIDED: "undecided", "warning": "warnings"}
        return words.get(diagnostic.level) in self.options.deny

    # Goals

    def _ask(self, made: Made, std: str, program: str) -> int:
        """Answers goals and questions about two impls. The status is 1 where one doesn't hold, or two impls aren't apart."""
        asker = self._read(made, std).asker(program, self.options.coherence)
        status = 0
        for word, goal in self.options.goals:
            if goal is None:
                asker.prompt(line_reader(self.options.cache), lambda lines: print(lines, flush=True))
                continue
            answer = asker.answer(word, goal)
            self._say(word, goal, answer)
            status = status or (0 if answer.holds else 1)
        if self.options.why_overlap:
            answer = asker.overlap(*self.options.why_overlap)
            self._say("overlap", " and ".join(self.options.why_overlap), answer)
            status = status or (0 if answer.holds else 1)
        return status

    def _say(self, word: str, goal: str, answer: Answer) -> None:
        if self.options.message_format == "json":
            print(json.dumps({"kind": word, "goal": goal, "holds": answer.holds, "answer": answer.lines}))
        else:
            print("%s: %s" % (goal, "\n".join(answer.lines)))


def line_reader(cache: str) -> Callable[[], str]:
    """What reads a line: on a terminal with a prompt, and with a history where Python has it."""
    if not sys.stdin.isatty():
        return input
    try:
        import readline
    except ImportError:
        return lambda: input("coherence> ")
    file = os.path.join(cache, "history")
    if os.path.exists(file):
        readline.read_history_file(file)
    os.makedirs(cache, exist_ok=True)
    atexit.register(readline.write_history_file, file)
    return lambda: input("coherence> ")


def sum_of(found: List[Diagnostic]) -> str:
    """How many there are of each level, in words."""
    counts = {level: sum(1 for diagnostic in found if diagnostic.level == level) for level in ("error", UNDECIDED, "warning")}
    told = ["%d %s" % (count, level + ("s" if count != 1 and level != UNDECIDED else "")) for level, count in counts.items() if count]
    return ", ".join(told) or "nothing is refused"


def main(arguments: Optional[List[str]] = None) -> int:
    """Runs it all. Answers the status."""
    gc.disable()  # what is read stays
    options = options_of(sys.argv[1:] if arguments is None else arguments)
    try:
        return Command(options).run()
    except (StepFailed, Unreadable, BadGoal) as error:
        print("error: %s" % error, file=sys.stderr)
        return 2
    except KeyboardInterrupt:
        return 130
    except BrokenPipeError:
        os.dup2(os.open(os.devnull, os.O_WRONLY), sys.stdout.fileno())
        return 0
