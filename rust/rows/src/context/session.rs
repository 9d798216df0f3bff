//! A run over the rows of a text that declare, and that ask what a context says.

use crate::context::declaring::declare;
use crate::context::ir;
use crate::notation::answers::{write_outcome, Answer, Item, Items, Line};
use crate::notation::reader::Reader;
use crate::notation::refusals::Refusal;
use crate::notation::rows::Row;
use crate::notation::transcript::Transcript;
use candidate_ir::decl::builder::{DeclFault, DeclsBuilder};
use candidate_ir::decl::context::Cx;
use candidate_ir::decl::fault_places::DeclError;
use candidate_ir::decl::held::Owner;
use candidate_ir::ir::stop::Stop;
use kit::alloc::{AllocError, Global};
use kit::prelude::*;

/// What rows are asked of.
pub enum Phase {
    /// Nothing is declared.
    Outside,
    Declaring(DeclsBuilder),
    Declared(Cx),
}

/// The rows that are left, what was printed, and the names.
pub struct Session<'a> {
    pub reader: Reader<'a>,
    out: Transcript,
    rest: &'a str,
    /// The row that was read last, and the number of its line.
    row: Row<'a>,
    line: usize,
    /// Rows that declare, to be read again.
    common: &'a str,
}

/// How many times as long as the rows the transcript may be before it has to grow.
const TRANSCRIPT: usize = 2;

/// What is printed for the rows of the text; an error where the transcript's memory was refused.
pub fn run(alloc: Global, text: &str) -> Result<String, AllocError> {
    let mut session = Session::new(alloc, text)?;
    let mut phase = Phase::Outside;
    for _ in 0..u64::MAX {
        let Some(row) = session.next_row() else {
            break;
        };
        phase = session.step(phase, row);
    }
    session.into_transcript()
}

/// Whether memory was refused to the row.
fn is_refused_growth(outcome: &Result<Answer, Refusal>) -> bool {
    matches!(outcome, Err(Refusal::Stop(Stop::Memory)))
}

/// Whose content has the fault: the definition or the impl of a number, and which part of it.
fn place_of(alloc: Global, error: DeclError) -> Result<Answer, Refusal> {
    if matches!(error.fault, DeclFault::Memory) {
        return Err(Refusal::from(error.fault));
    }
    let Some(place) = error.place else {
        return Ok(Answer::One(Item::Nothing));
    };
    let (word, number) = match place.owner {
        Owner::Definition(number) => ("definition", number),
        Owner::Impl(number) => ("impl", number),
    };
    let mut items = Items::new(alloc);
    items.push(Item::Word(word));
    items.push(Item::Count(number));
    if let Some(part) = place.part {
        items.push(Item::Word("part"));
        items.push(Item::Count(part));
    }
    items.row()
}

impl<'a> Session<'a> {
    /// All rows of the text are left; an error where the transcript's memory was refused.
    pub fn new(alloc: Global, text: &'a str) -> Result<Self, AllocError> {
        Ok(Session {
            reader: Reader::new(alloc),
            out: Transcript::new(alloc, text.len().saturating_mul(TRANSCRIPT))?,
            rest: text,
            row: Row::new(""),
            line: 0,
            common: "",
        })
    }

    /// The next row, which is printed. What is empty or begins with `//` is printed, too, but is no row.
    pub fn next_row(&mut self) -> Option<Row<'a>> {
        for _ in 0..u64::MAX {
            if self.rest.is_empty() {
                break;
            }
            let (line, rest) = self.rest.split_once('\n').unwrap_or((self.rest, ""));
            self.rest = rest;
            self.line = self.line.saturating_add(1);
            self.out.write(line);
            if !line.is_empty() && !line.starts_with("//") {
                self.row = Row::new(line);
                return Some(self.row);
            }
            self.out.write("\n");
        }
        None
    }

    /// Prints the answer behind its row, and says whether memory was refused to it, so that it is to be asked again.
    pub fn print(&mut self, cx: Option<&Cx>, outcome: Result<Answer, Refusal>) -> bool {
        let line = Line {
            row: self.row,
            number: self.line,
            unknown: self.reader.unknown,
        };
        write_outcome(
            &mut self.out,
            self.reader.names.as_slice(),
            cx,
            line,
            &outcome,
        );
        is_refused_growth(&outcome)
    }

    /// Prints that the row is done.
    pub fn print_done(&mut self) {
        self.print(None, Ok(Answer::One(Item::Done)));
    }

    /// All that was printed; an error where its memory was refused.
    pub fn into_transcript(self) -> Result<String, AllocError> {
        self.out.finish()
    }

    /// Answers the row, and says what the next ones are asked of.
    pub fn step(&mut self, phase: Phase, row: Row<'a>) -> Phase {
        match row.verb {
            "common" => {
                self.note_common();
                phase
            }
            "begin" => Phase::Declaring(self.begin(row)),
            _ => self.answer(phase, row),
        }
    }

    /// Answers a row that isn't of the text itself.
    fn answer(&mut self, phase: Phase, row: Row<'a>) -> Phase {
        match phase {
            Phase::Declaring(builder) => self.answer_declaring(builder, row),
            Phase::Declared(mut cx) => {
                self.ask(&mut cx, row);
                Phase::Declared(cx)
            }
            Phase::Outside => {
                self.print(None, Err(Refusal::Condition));
                Phase::Outside
            }
        }
    }

    /// Answers a row that declares, or that ends the declarations.
    fn answer_declaring(&mut self, mut builder: DeclsBuilder, row: Row<'a>) -> Phase {
        match row.verb {
            "finish" => self.finish(builder),
            "finish_place" => self.finish_place(builder),
            _ => {
                self.declare(&mut builder, row);
                Phase::Declaring(builder)
            }
        }
    }

    /// Notes the rows up to an empty line, to be read again.
    pub fn note_common(&mut self) {
        let (common, _) = self.rest.split_once("\n\n").unwrap_or((self.rest, ""));
        self.common = common;
        self.print_done();
    }

    /// Begins declarations anew, with the common ones where the row asks for them.
    pub fn begin(&mut self, row: Row<'a>) -> DeclsBuilder {
        self.reader.names.clear();
        self.reader.members.clear();
        self.print_done();
        let mut builder = DeclsBuilder::new(self.reader.alloc);
        if row.first == "common" {
            for line in self.common.lines() {
                let row = Row::new(line);
                if is_refused_growth(&declare(&mut self.reader, &mut builder, row)) {
                    let _ = declare(&mut self.reader, &mut builder, row);
                }
            }
        }
        builder
    }

    fn finish(&mut self, builder: DeclsBuilder) -> Phase {
        match builder.finish() {
            Ok(decls) => {
                self.print_done();
                Phase::Declared(Cx::new(decls))
            }
            Err(error) => {
                self.print(None, Err(Refusal::from(error.fault)));
                Phase::Outside
            }
        }
    }

    /// Prints whose content has the fault, if there is one.
    fn finish_place(&mut self, builder: DeclsBuilder) -> Phase {
        let outcome = match builder.finish() {
            Ok(_) => Ok(Answer::One(Item::Done)),
            Err(error) => place_of(self.reader.alloc, error),
        };
        self.print(None, outcome);
        Phase::Outside
    }

    fn declare(&mut self, builder: &mut DeclsBuilder, row: Row<'a>) {
        let outcome = declare(&mut self.reader, builder, row);
        if self.print(None, outcome) {
            let _ = declare(&mut self.reader, builder, row);
        }
    }

    fn ask(&mut self, cx: &mut Cx, row: Row<'a>) {
        let outcome = ir::answer(&mut self.reader, cx, row);
        if self.print(Some(cx), outcome) {
            let _ = ir::answer(&mut self.reader, cx, row);
        }
    }
}
