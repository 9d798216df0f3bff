//! What rows answer, and how it is printed.

use crate::notation::names::{word_of, Name};
use crate::notation::printing::{write_definition, write_head, write_tree};
use crate::notation::refusals::{Refusal, WordPlace};
use crate::notation::rows::Row;
use crate::notation::transcript::Transcript;
use candidate_ir::decl::contents::ImplId;
use candidate_ir::decl::context::Cx;
use candidate_ir::ir::heads::Head;
use candidate_ir::ir::kinds::TraitRef;
use candidate_ir::ir::numbered::Numbered;
use candidate_ir::ir::stop::Stop;
use kit::alloc::Global;
use kit::prelude::*;

/// A part of an answer.
#[derive(Clone, Copy)]
pub enum Item {
    Done,
    /// There is no value.
    Nothing,
    Truth(bool),
    Count(usize),
    Word(&'static str),
    /// The tree of a number.
    Node(u32),
    Head(Head),
    Reference(TraitRef),
    Definition(u32),
    Impl(ImplId),
    /// The next row of items begins behind it.
    Next,
}

/// What a row answers.
pub enum Answer {
    One(Item),
    List(Vec<Item>),
    /// Items with spaces between them.
    Row(Vec<Item>),
    /// A list of such rows.
    Rows(Vec<Item>),
    Text(String),
}

/// Items one after the other. Once memory was refused to one, none is kept, and they are no answer.
pub struct Items {
    list: Vec<Item>,
    is_refused: bool,
}

impl Items {
    /// No items.
    pub fn new(alloc: Global) -> Self {
        Items {
            list: Vec::new(alloc),
            is_refused: false,
        }
    }

    /// Adds the item.
    pub fn push(&mut self, item: Item) {
        if !self.is_refused {
            self.is_refused = self.list.push(item).is_err();
        }
    }

    /// The answer that lists them.
    pub fn list(self) -> Result<Answer, Refusal> {
        if self.is_refused {
            return Err(Refusal::Stop(Stop::Memory));
        }
        Ok(Answer::List(self.list))
    }

    /// The answer with spaces between them.
    pub fn row(self) -> Result<Answer, Refusal> {
        if self.is_refused {
            return Err(Refusal::Stop(Stop::Memory));
        }
        Ok(Answer::Row(self.list))
    }

    /// The answer that lists the rows of them.
    pub fn rows(self) -> Result<Answer, Refusal> {
        if self.is_refused {
            return Err(Refusal::Stop(Stop::Memory));
        }
        Ok(Answer::Rows(self.list))
    }
}

/// That it was done.
pub fn done<E>(outcome: Result<(), E>) -> Result<Answer, Refusal>
where
    Refusal: From<E>,
{
    outcome?;
    Ok(Answer::One(Item::Done))
}

/// The node that was made or found.
pub fn node<N: Numbered, E>(outcome: Result<N, E>) -> Result<Answer, Refusal>
where
    Refusal: From<E>,
{
    Ok(Answer::One(Item::Node(outcome?.number())))
}

/// Writes the tree of the number; where there is no context, only that a node is there.
fn write_node(out: &mut Transcript, names: &[Name<'_>], cx: Option<&Cx>, number: u32) {
    match cx {
        Some(cx) if (number as usize) < cx.node_count() => write_tree(out, names, cx, number),
        _ => out.write("a node"),
    }
}

/// Writes the item.
fn write_item(out: &mut Transcript, names: &[Name<'_>], cx: Option<&Cx>, item: Item) {
    match item {
        Item::Done => out.write("ok"),
        Item::Nothing => out.write("none"),
        Item::Truth(true) => out.write("true"),
        Item::Truth(false) => out.write("false"),
        Item::Count(count) => out.write_number("", count as u64),
        Item::Word(word) => out.write(word),
        Item::Node(number) => write_node(out, names, cx, number),
        Item::Head(head) => write_head(out, names, head),
        Item::Reference(reference) => {
            write_definition(out, names, reference.def_id.0);
            out.write(" of ");
            write_node(out, names, cx, reference.args.0);
        }
        Item::Definition(number) => write_definition(out, names, number),
        Item::Impl(id) => out.write(word_of(names, id.0, true).unwrap_or("another impl")),
        Item::Next => {}
    }
}

/// Writes the items, with that text between them, and a comma where the next row begins.
fn write_items(
    out: &mut Transcript,
    names: &[Name<'_>],
    cx: Option<&Cx>,
    items: &[Item],
    between: &str,
) {
    let mut before = "";
    for item in items {
        out.write(match item {
            Item::Next => ",",
            _ => before,
        });
        write_item(out, names, cx, *item);
        before = between;
    }
}

/// Writes what a row answers.
fn write_answer(out: &mut Transcript, names: &[Name<'_>], cx: Option<&Cx>, answer: &Answer) {
    match answer {
        Answer::One(item) => write_item(out, names, cx, *item),
        Answer::List(items) => {
            out.write("[");
            write_items(out, names, cx, items.as_slice(), ", ");
            out.write("]");
        }
        Answer::Row(items) => write_items(out, names, cx, items.as_slice(), " "),
        Answer::Rows(items) => {
            out.write("[");
            write_items(out, names, cx, items.as_slice(), " ");
            out.write("]");
        }
        Answer::Text(text) => out.write(text.as_str()),
    }
}

/// A row as it stands in the text.
#[derive(Clone, Copy)]
pub struct Line<'a> {
    pub row: Row<'a>,
    /// The number of its line, from 1 on.
    pub number: usize,
    /// The word of its operands that nothing knows, if there is one.
    pub unknown: &'a str,
}

/// Writes which word nothing knows, if one stands there, and in which line.
fn write_unknown_word(out: &mut Transcript, line: Line<'_>, place: WordPlace) {
    let word = match place {
        WordPlace::Row(place) => line.row.word(place),
        WordPlace::Operand => line.unknown,
    };
    out.write("unknown word");
    if !word.is_empty() {
        out.write(" ");
        out.write(word);
    }
    out.write_number(" in line ", line.number as u64);
}

/// Writes why a row answers nothing.
fn write_refusal(out: &mut Transcript, line: Line<'_>, refusal: Refusal) {
    match refusal {
        Refusal::Condition => out.write("condition"),
        Refusal::UnknownWord(place) => write_unknown_word(out, line, place),
        Refusal::Stop(stop) => out.write_number("stop ", stop as u64),
        Refusal::NoSolution => out.write("refused"),
        Refusal::Ambiguous => out.write("ambiguous"),
        Refusal::Fault(fault) => out.write_number("fault ", fault as u64),
    }
}

/// Writes what the row answers, or why it answers nothing, and ends the line.
pub fn write_outcome(
    out: &mut Transcript,
    names: &[Name<'_>],
    cx: Option<&Cx>,
    line: Line<'_>,
    outcome: &Result<Answer, Refusal>,
) {
    out.write(" => ");
    match outcome {
        Ok(answer) => write_answer(out, names, cx, answer),
        Err(refusal) => write_refusal(out, line, *refusal),
    }
    out.write("\n");
}
