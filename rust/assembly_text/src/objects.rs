// Made of `crates/assembly_text/src/objects.rt` by `bench/plain.py`: an edit of this file is lost.

//! Answers as objects of JSON, each in a line. They are made of the words of the answers as they are printed.

use kit::{eprintln, format, prelude::*, print, println, vec};
use crate::asking::{Asking, Query};
use crate::object_trees::{Object, Rest};
use crate::stops::words_of_stop;
use assembly_notation::faults::Fault;
use assembly_notation::words::Words;
use ir_trees::ir::stop::Stop;
use kit::json::Writer;
use kit::alloc::{AllocError, Global};

/// A line that asks.
#[derive(Clone, Copy, Debug)]
pub struct AskedLine<'l> {
    pub number: u64,
    pub line: &'l [u8],
    /// What its first word asks.
    pub query: Query,
}

impl<'l> AskedLine<'l> {
    pub fn first_word(self) -> &'l str {
        match Words::of_line(self.line) {
            Ok(Some((word, _))) => word,
            _ => "",
        }
    }
}

/// What is wrong with a line.
pub fn fault_object(alloc: Global, number: u64, fault: Fault<'_>) -> Result<Vec<u8>, AllocError> {
    let mut reason = String::new(alloc);
    write!(reason, "{fault}")?;
    let mut writer = Writer::new(Vec::new(alloc));
    writer.begin_object()?;
    writer.key("line")?;
    writer.u64(number)?;
    writer.key("error")?;
    writer.string(reason.as_str())?;
    writer.end_object()?;
    let mut bytes = writer.into_inner();
    bytes.push(b'\n')?;
    Ok(bytes)
}

/// The answer that was made last, or why it wasn't made.
pub fn answer_object(
    asking: &Asking<'_>,
    asked: AskedLine<'_>,
    made: Result<(), Stop>,
) -> Result<Vec<u8>, AllocError> {
    let mut object = Object::begin(asking.scope.alloc, &asking.scope.names)?;
    object.add_number("line", asked.number)?;
    object.add_text("query", asked.first_word())?;
    match made {
        Ok(()) => {
            let text = asking.answer();
            object.add_answer(asked.query, text)?;
            object.add_text("text", text.trim_end())?;
        }
        Err(stop) => {
            let number = stop as u8;
            let mut text = String::new(asking.scope.alloc);
            write!(text, "stop {number}")?;
            object.add_text("answer", "stop")?;
            object.add_number("stop", u64::from(number))?;
            object.add_text("words", words_of_stop(stop))?;
            object.add_text("text", text.as_str())?;
        }
    }
    object.end()
}

impl Object<'_, '_> {
    /// Adds what the lines of an answer say.
    fn add_answer(&mut self, query: Query, text: &str) -> Result<(), AllocError> {
        if matches!(query, Query::Check) {
            return self.add_findings(text);
        }
        let (first, further) = text.split_once('\n').unwrap_or((text, ""));
        let mut words = Rest::of(first);
        match query {
            Query::Orphan => self.add_orphan(&mut words)?,
            Query::Normalize => self.add_normal(&mut words)?,
            Query::Candidates => self.add_candidates(first)?,
            Query::Overlap => self.add_overlap(&mut words)?,
            Query::Why if !is_verdict(first) => self.add_overlap(&mut words)?,
            _ => self.add_verdict(&mut words)?,
        }
        self.add_reasons(further)
    }

    /// Adds what the orphan check answers.
    fn add_orphan(&mut self, words: &mut Rest<'_>) -> Result<(), AllocError> {
        let Some(answer) = words.next_word() else {
            return Ok(());
        };
        self.add_text("answer", answer)?;
        match answer {
            "nonlocal" => self.add_input_types(words),
            "uncovered" => {
                self.add_tree("type", words)?;
                self.add_local(words)
            }
            _ => self.add_next_number("stop", words),
        }
    }

    /// Adds the types of `(T, Yes) (U, No)`.
    fn add_input_types(&mut self, words: &mut Rest<'_>) -> Result<(), AllocError> {
        self.writer.key("types")?;
        self.writer.begin_array()?;
        for _ in 0..u64::MAX {
            let Some(word) = words.next_word() else {
                break;
            };
            self.writer.begin_object()?;
            self.writer.key("type")?;
            self.put_tree(word.strip_prefix('(').unwrap_or(word), words)?;
            self.writer.key("is_first")?;
            self.writer.boolean(words.next_is("Yes)"))?;
            words.next_is("No)");
            self.writer.end_object()?;
        }
        self.writer.end_array()
    }

    /// Adds the type of `local T`, or that there is none.
    fn add_local(&mut self, words: &mut Rest<'_>) -> Result<(), AllocError> {
        words.next_is("local");
        if words.next_is("none") {
            self.writer.key("local")?;
            return self.writer.null();
        }
        self.add_tree("local", words)
    }

    /// Adds what a goal comes to, and what its variables stand for.
    fn add_verdict(&mut self, words: &mut Rest<'_>) -> Result<(), AllocError> {
        let Some(answer) = words.next_word() else {
            return Ok(());
        };
        self.add_text("answer", answer)?;
        if answer == "yes" || answer == "maybe" {
            self.add_word("via", words)?;
        }
        if words.next_is("after") {
            words.next_is("round");
            if let Some(round) = words.next_number() {
                self.add_number("round", round)?;
            }
        }
        self.add_values(words)?;
        self.add_cause(words)
    }

    /// Adds what variables stand for, of `with $k = T, $l = U`, if that follows.
    fn add_values(&mut self, words: &mut Rest<'_>) -> Result<(), AllocError> {
        if !words.next_is("with") {
            return Ok(());
        }
        self.writer.key("with")?;
        self.writer.begin_array()?;
        for _ in 0..u64::MAX {
            let Some(variable) = words.next_if('$') else {
                break;
            };
            self.writer.begin_object()?;
            self.add_text("variable", variable)?;
            words.next_is("=");
            self.add_tree("type", words)?;
            self.writer.end_object()?;
        }
        self.writer.end_array()
    }

    /// Adds what stands behind `because`, if that follows.
    fn add_cause(&mut self, words: &mut Rest<'_>) -> Result<(), AllocError> {
        if words.next_is("because") {
            return self.add_text("because", words.text());
        }
        Ok(())
    }

    /// Adds what a projection is.
    fn add_normal(&mut self, words: &mut Rest<'_>) -> Result<(), AllocError> {
        let Some(answer) = words.next_word() else {
            return Ok(());
        };
        self.add_text("answer", answer)?;
        self.add_tree("type", words)
    }

    /// Adds whether two impls overlap.
    fn add_overlap(&mut self, words: &mut Rest<'_>) -> Result<(), AllocError> {
        let Some(answer) = words.next_word() else {
            return Ok(());
        };
        self.add_text("answer", answer)?;
        match answer {
            "overlap" | "maybe" => return self.add_tree("instance", words),
            "stop" => {}
            _ => {
                self.add_word("by", words)?;
                self.add_word("impl", words)?;
            }
        }
        match words.next_number() {
            Some(number) => self.add_number(
                if answer == "stop" { "stop" } else { "clause" },
                number,
            ),
            None => Ok(()),
        }
    }

    /// Adds the candidates of `(SOURCE: yes) (SOURCE: maybe): VERDICT`, and the verdict.
    fn add_candidates(&mut self, line: &str) -> Result<(), AllocError> {
        self.writer.key("candidates")?;
        self.writer.begin_array()?;
        let mut left = line;
        for _ in 0..u64::MAX {
            let Some((source, behind)) = left.split_once(": ") else {
                break;
            };
            let Some(source) = source.strip_prefix('(') else {
                break;
            };
            let (answer, behind) = behind.split_once(')').unwrap_or((behind, ""));
            self.writer.begin_object()?;
            self.add_source(&mut Rest::of(source))?;
            self.add_text("answer", answer)?;
            self.writer.end_object()?;
            left = behind.trim_start();
        }
        self.writer.end_array()?;
        let (_, verdict) = left.split_once(": ").unwrap_or(("", left));
        self.add_verdict(&mut Rest::of(verdict))
    }

    /// Adds by what a goal holds.
    fn add_source(&mut self, words: &mut Rest<'_>) -> Result<(), AllocError> {
        let Some(source) = words.next_word() else {
            return Ok(());
        };
        self.add_text("source", source)?;
        match source {
            "impl" => self.add_word("impl", words),
            "object" | "upcasting" => self.add_next_number("supertrait", words),
            "param_env" if words.next_is("global") => self.add_text("kind", "global"),
            "alias_bound" if words.next_is("nested") => self.add_text("kind", "nested"),
            _ => Ok(()),
        }
    }

    /// Adds the next word as a number, if it is one.
    fn add_next_number(&mut self, key: &str, words: &mut Rest<'_>) -> Result<(), AllocError> {
        match words.next_number() {
            Some(number) => self.add_number(key, number),
            None => Ok(()),
        }
    }

    /// Adds the steps of a derivation, or the goals that were asked for, if there are any, and all other lines as they are.
    fn add_reasons(&mut self, lines: &str) -> Result<(), AllocError> {
        if let Some(first) = first_reason(lines) {
            self.writer
                .key(if first.is_asked() { "goals" } else { "steps" })?;
            self.writer.begin_array()?;
            for line in lines.lines() {
                if let Some(reason) = Reason::of(line) {
                    self.put_reason(reason)?;
                }
            }
            self.writer.end_array()?;
        }
        self.add_others(Query::Why, lines)
    }

    fn put_reason(&mut self, reason: Reason<'_>) -> Result<(), AllocError> {
        self.writer.begin_object()?;
        self.add_number("number", reason.number)?;
        let mut goal = Rest::of(reason.goal);
        if goal.next_is("-") {
            self.writer.key("is_negative")?;
            self.writer.boolean(true)?;
        }
        self.add_tree("goal", &mut goal)?;
        let mut words = Rest::of(reason.words);
        if reason.is_asked() {
            self.add_verdict(&mut words)?;
        } else {
            self.add_source(&mut words)?;
            self.add_premises(&mut words)?;
            self.add_values(&mut words)?;
        }
        self.writer.end_object()
    }

    /// Adds the numbers of the steps that a rule rests on, of `from N M`, if that follows.
    fn add_premises(&mut self, words: &mut Rest<'_>) -> Result<(), AllocError> {
        let has_some = words.next_is("from");
        self.writer.key("from")?;
        self.writer.begin_array()?;
        for _ in 0..u64::MAX {
            if !has_some {
                break;
            }
            let Some(number) = words.next_number() else {
                break;
            };
            self.writer.u64(number)?;
        }
        self.writer.end_array()
    }

    /// Adds what is found of impls, and all other lines as they are.
    fn add_findings(&mut self, text: &str) -> Result<(), AllocError> {
        self.add_text("answer", if text == "ok\n" { "ok" } else { "found" })?;
        self.writer.key("findings")?;
        self.writer.begin_array()?;
        for line in text.lines() {
            if line.starts_with("impl ") {
                self.put_finding(&mut Rest::of(line))?;
            }
        }
        self.writer.end_array()?;
        self.add_reasons_of_pairs(text)?;
        self.add_others(Query::Check, text)
    }

    /// Adds why impls may overlap, of a line `why NAME NAME:` and those behind it, if there are any.
    fn add_reasons_of_pairs(&mut self, text: &str) -> Result<(), AllocError> {
        let mut has_some = false;
        for line in text.lines() {
            if let Some(names) = names_of_heading(line) {
                if has_some {
                    self.end_reasons()?;
                } else {
                    self.writer.key("reasons")?;
                    self.writer.begin_array()?;
                    has_some = true;
                }
                self.begin_reasons(&mut Rest::of(names))?;
            } else if has_some {
                self.writer.string(line.trim_start())?;
            }
        }
        if has_some {
            self.end_reasons()?;
            self.writer.end_array()?;
        }
        Ok(())
    }

    /// Begins what is told of the two impls.
    fn begin_reasons(&mut self, names: &mut Rest<'_>) -> Result<(), AllocError> {
        self.writer.begin_object()?;
        self.add_word("first", names)?;
        self.add_word("second", names)?;
        self.writer.key("lines")?;
        self.writer.begin_array()
    }

    fn end_reasons(&mut self) -> Result<(), AllocError> {
        self.writer.end_array()?;
        self.writer.end_object()
    }

    fn put_finding(&mut self, words: &mut Rest<'_>) -> Result<(), AllocError> {
        self.writer.begin_object()?;
        self.writer.key("impls")?;
        self.writer.begin_array()?;
        self.put_impl(words)?;
        let specializes = words.next_is("specializes");
        let is_pair = specializes || words.next_is("and");
        if is_pair {
            self.put_impl(words)?;
        }
        self.writer.end_array()?;
        if specializes {
            self.add_text("kind", "specializes")?;
        } else if is_pair && words.next_is("lint") {
            words.next_is("leak");
            self.add_text("kind", "leak lint")?;
            self.add_tree("instance", words)?;
        } else if is_pair {
            self.add_text("kind", "overlap")?;
            self.add_overlap(words)?;
        } else {
            self.add_fault_of_impl(words)?;
        }
        self.writer.end_object()
    }

    /// Puts the impl of `impl NAME (line N)`. One of the prelude has no line of the text.
    fn put_impl(&mut self, words: &mut Rest<'_>) -> Result<(), AllocError> {
        self.writer.begin_object()?;
        words.next_is("impl");
        self.add_word("name", words)?;
        if words.next_is("(line") {
            let number = words.next_word().unwrap_or("");
            if let Ok(number) = number.trim_end_matches(')').parse::<u64>() {
                self.add_number("line", number)?;
            }
        } else {
            words.next_is("(prelude)");
        }
        self.writer.end_object()
    }

    /// Adds what is wrong with one impl alone.
    fn add_fault_of_impl(&mut self, words: &mut Rest<'_>) -> Result<(), AllocError> {
        if words.next_is("lint") {
            words.next_is("orphan");
            self.add_text("kind", "orphan lint")?;
            return self.add_orphan(words);
        }
        if words.next_is("orphan") {
            self.add_text("kind", "orphan")?;
            return self.add_orphan(words);
        }
        if words.next_is("stop") {
            self.add_text("kind", "stop")?;
            return self.add_next_number("stop", words);
        }
        self.add_text("kind", "not specialized")
    }

    /// Adds the lines of an answer to `why` or `check` that aren't told otherwise, as they are, if there are any.
    fn add_others(&mut self, query: Query, lines: &str) -> Result<(), AllocError> {
        let mut has_some = false;
        for line in lines.lines() {
            if is_told(query, line) {
                continue;
            }
            if !has_some {
                self.writer.key("more")?;
                self.writer.begin_array()?;
                has_some = true;
            }
            self.writer.string(line)?;
        }
        if has_some {
            self.writer.end_array()?;
        }
        Ok(())
    }
}

/// The first line of these that is a reason of `why`.
fn first_reason(lines: &str) -> Option<Reason<'_>> {
    for line in lines.lines() {
        if let Some(reason) = Reason::of(line) {
            return Some(reason);
        }
    }
    None
}

/// The names of the line `why NAME NAME:` behind what `check` found.
fn names_of_heading(line: &str) -> Option<&str> {
    line.strip_prefix("why ")?.strip_suffix(":")
}

/// Whether the line says what a goal comes to, and not whether impls overlap.
fn is_verdict(line: &str) -> bool {
    match line {
        "refused" | "maybe misc" | "maybe param_env" | "maybe alias_bound" | "maybe none" => true,
        _ => line.starts_with("yes "),
    }
}

/// Whether the line is a reason of `why`, or what `check` says of an impl, or that nothing is found.
fn is_told(query: Query, line: &str) -> bool {
    match query {
        Query::Check => {
            line == "ok"
                || ["impl ", "why ", "  "]
                    .iter()
                    .any(|begin| line.starts_with(begin))
        }
        _ => Reason::of(line).is_some(),
    }
}

/// A line of `why`: a step of a derivation, or a goal that was asked for.
#[derive(Clone, Copy, Debug)]
struct Reason<'t> {
    number: u64,
    goal: &'t str,
    /// What stands behind the goal.
    words: &'t str,
}

impl<'t> Reason<'t> {
    /// What the line says, if it is one of these.
    fn of(line: &'t str) -> Option<Reason<'t>> {
        let (number, rest) = line.strip_prefix("  ")?.split_once(' ')?;
        let (goal, words) = rest.split_once(": ")?;
        Some(Reason {
            number: number.parse::<u64>().ok()?,
            goal,
            words,
        })
    }

    /// Whether it is a goal that was asked for.
    fn is_asked(self) -> bool {
        let first = Rest::of(self.words).next_word();
        matches!(first, Some("yes" | "maybe" | "refused"))
    }
}
