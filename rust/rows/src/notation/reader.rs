//! Operands: words that are read from left to right, each of which makes one value of what those before it left.

use crate::notation::answers::{Answer, Item};
use crate::notation::leaves::{leaf, number_in};
use crate::notation::names::{named, over_list, Name, Sort, SORTS};
use crate::notation::operators::{node_over, value_over};
use crate::notation::parts::{is_at, make, sort_at, NodeSort, Part, Table};
use crate::notation::refusals::{Refusal, WordPlace};
use crate::notation::rows::Row;
use crate::notation::tables::value_of;
use crate::notation::values::{Last, Value};
use candidate_ir::ir::kinds::{
    Args, Binder, Clause, Const, ExistentialPredicate, GenericArg, Region, TraitId, TraitRef, Ty,
    VarKind,
};
use kit::alloc::{AllocError, Global};
use kit::prelude::*;

/// The names that were given, and the values that words left.
pub struct Reader<'a> {
    pub alloc: Global,
    pub names: Vec<Name<'a>>,
    /// Nodes that rows noted, to be compared with others.
    pub members: Vec<u32>,
    values: Vec<Value>,
    /// The kinds of the parameters of what is declared.
    pub kinds: Vec<VarKind>,
    /// The node that was answered last.
    it: u32,
    /// The name that stood last in an operand.
    pub unknown: &'a str,
}

/// That nothing knows the word of an operand.
const UNKNOWN: Refusal = Refusal::UnknownWord(WordPlace::Operand);

/// The kinds of the letters: `T` is a type, `C` a constant, any other a region.
pub fn kinds(alloc: Global, letters: &str) -> Result<Vec<VarKind>, AllocError> {
    let mut kinds = Vec::new(alloc);
    for letter in letters.bytes() {
        let kind = match letter {
            b'T' => VarKind::Ty,
            b'C' => VarKind::Const,
            _ => VarKind::Region,
        };
        kinds.push(kind)?;
    }
    Ok(kinds)
}

impl<'a> Reader<'a> {
    /// No name is given, and nothing is noted.
    pub fn new(alloc: Global) -> Self {
        Reader {
            alloc,
            names: Vec::new(alloc),
            members: Vec::new(alloc),
            values: Vec::new(alloc),
            kinds: Vec::new(alloc),
            it: u32::MAX,
            unknown: "",
        }
    }

    /// Gives the node of the row a name.
    pub fn name_node<T: Table>(&mut self, table: &mut T, row: Row<'a>) -> Result<Answer, Refusal> {
        let number = self.operand(table, row.left)?.node();
        self.names.push(Name {
            word: row.first,
            sort: Sort::Node,
            number,
            arity: 0,
        })?;
        Ok(Answer::One(Item::Done))
    }

    /// Notes the node that is answered. A row that has the word `quiet` doesn't print it.
    pub fn noted(
        &mut self,
        row: Row<'a>,
        outcome: Result<Answer, Refusal>,
    ) -> Result<Answer, Refusal> {
        if let Ok(Answer::One(Item::Node(number))) = outcome {
            self.it = number;
            if row.has("quiet") {
                return Ok(Answer::One(Item::Done));
            }
        }
        outcome
    }

    /// The number of what is named so, or the one whose digits stand in the word or behind its `@`; of another word that of nothing.
    pub fn number(&self, word: &str) -> u32 {
        match named(self.names.as_slice(), word) {
            Some(name) => name.number,
            None => number_in(word.strip_prefix('@').unwrap_or(word)),
        }
    }

    /// The value of the operand, or nothing where there is none. Words that leave more than one value, or none, say nothing.
    pub fn operand<T: Table>(&mut self, table: &mut T, text: &'a str) -> Result<Value, Refusal> {
        self.values.clear();
        for word in text.split_whitespace() {
            let (times, words) = word.split_once('*').unwrap_or(("1", word));
            for _ in 0..times.parse::<u32>().unwrap_or(0) {
                for word in words.split('+') {
                    self.read(table, word)?;
                }
            }
        }
        match self.values.as_slice() {
            [] if text.is_empty() => Ok(Value::Nothing),
            [value] => Ok(*value),
            _ => Err(Refusal::Condition),
        }
    }

    /// The values of the row's operands.
    pub fn operands<T: Table>(
        &mut self,
        table: &mut T,
        row: Row<'a>,
    ) -> Result<[Value; 3], Refusal> {
        let left = self.operand(table, row.left)?;
        let right = self.operand(table, row.right)?;
        Ok([left, right, self.operand(table, row.third)?])
    }

    fn read<T: Table>(&mut self, table: &mut T, word: &'a str) -> Result<(), Refusal> {
        let last = self.last();
        match (word, last[0]) {
            ("copy", value) => return self.push(0, value),
            ("it", _) => return self.push(0, Value::Node(self.it)),
            ("nothing", _) => return self.push(0, Value::Node(u32::MAX)),
            ("args" | "env" | "preds", Value::Count(count)) => {
                return self.push_list(table, word, 1, count as usize);
            }
            _ => {}
        }
        if let Some((count, part)) = node_over(word, last) {
            return self.push_made(table, count, &part);
        }
        if let Some((count, value)) = value_over(word, last) {
            return self.push(count, value);
        }
        if let Some(part) = leaf(word) {
            return self.push_made(table, 0, &part);
        }
        if let Some(letters) = word.strip_prefix("binder:") {
            let kinds = kinds(self.alloc, letters)?;
            return self.push_made(table, 0, &Part::Vars(kinds));
        }
        if let Ok(count) = word.parse::<u32>() {
            return self.push(0, Value::Count(count));
        }
        self.read_name(table, word)
    }

    /// Reads a name: with a dot before it the definition itself, else the definition over a list or over its arguments. Behind `as_`
    /// stands of which sort the last definition is taken to be.
    fn read_name<T: Table>(&mut self, table: &mut T, word: &'a str) -> Result<(), Refusal> {
        if let Some(name) = word.strip_prefix('.') {
            return self.push(0, Value::Definition(self.number(name)));
        }
        self.unknown = word;
        let name = match (word.strip_prefix("as_"), self.last()[0]) {
            (Some(sort), Value::Definition(number)) => {
                let _ = self.values.pop();
                Name {
                    word,
                    sort: value_of(&SORTS, sort).ok_or(UNKNOWN)?,
                    number,
                    arity: 0,
                }
            }
            _ => named(self.names.as_slice(), word).ok_or(UNKNOWN)?,
        };
        self.push_named(table, name)
    }

    /// The definition over the list before it, or over as many arguments as it takes, or the node of that name.
    fn push_named<T: Table>(&mut self, table: &mut T, name: Name<'a>) -> Result<(), Refusal> {
        let number = name.number;
        if let Sort::Node = name.sort {
            return self.push(0, Value::Node(number));
        }
        if !is_at(table, self.last()[0].node(), NodeSort::Args) {
            self.push_list(table, "args", 0, name.arity)?;
        }
        let args = Args(self.last()[0].node());
        if let Sort::Trait = name.sort {
            let def_id = TraitId(number);
            return self.push(1, Value::Reference(TraitRef { def_id, args }));
        }
        let part = over_list(name.sort, number, args).ok_or(Refusal::Condition)?;
        self.push_made(table, 1, &part)
    }

    /// The list of that word, of the last values, which are so many, before those that are left out.
    fn push_list<T: Table>(
        &mut self,
        table: &mut T,
        word: &str,
        left_out: usize,
        count: usize,
    ) -> Result<(), Refusal> {
        let taken = count.saturating_add(left_out);
        let first = self.values.len().saturating_sub(taken);
        let values = self.values.as_slice();
        let values = values.get(first..).unwrap_or(&[]);
        let values = values.get(..count).ok_or(Refusal::Condition)?;
        let part = list_of(self.alloc, table, word, values)?;
        self.push_made(table, taken, &part)
    }

    /// The last four values, or as many as there are.
    fn last(&self) -> Last {
        [
            self.before_last(0),
            self.before_last(1),
            self.before_last(2),
            self.before_last(3),
        ]
    }

    /// The value with so many behind it, if there is one.
    fn before_last(&self, others: usize) -> Value {
        let value = self.values.iter().rev().nth(others);
        *value.unwrap_or(&Value::Nothing)
    }

    /// The value stands in the place of the last ones, which are so many.
    fn push(&mut self, count: usize, value: Value) -> Result<(), Refusal> {
        self.values
            .truncate(self.values.len().saturating_sub(count));
        self.values.push(value)?;
        Ok(())
    }

    /// What is made stands in the place of the last values, which are so many.
    fn push_made<T: Table>(
        &mut self,
        table: &mut T,
        count: usize,
        part: &Part,
    ) -> Result<(), Refusal> {
        let number = make(table, part)?;
        self.push(count, Value::Node(number))
    }
}

/// What stands in a list that is made.
trait Listed: Copy {
    /// What the value is, if it is such a member.
    fn of<T: Table>(table: &T, value: Value) -> Option<Self>;
}

impl Listed for GenericArg {
    fn of<T: Table>(table: &T, value: Value) -> Option<Self> {
        let number = value.node();
        match sort_at(table, number) {
            Some(NodeSort::Ty) => Some(GenericArg::Ty(Ty(number))),
            Some(NodeSort::Const) => Some(GenericArg::Const(Const(number))),
            Some(NodeSort::Region) => Some(GenericArg::Region(Region(number))),
            _ => None,
        }
    }
}

impl Listed for Clause {
    fn of<T: Table>(table: &T, value: Value) -> Option<Self> {
        let number = value.node();
        is_at(table, number, NodeSort::Clause).then_some(Clause(number))
    }
}

impl Listed for Binder<ExistentialPredicate> {
    fn of<T: Table>(_: &T, value: Value) -> Option<Self> {
        match value {
            Value::Bound(bound) => Some(bound),
            _ => None,
        }
    }
}

/// The list of what the values are; that one is no member is a `Refusal::Condition`.
fn collected<M: Listed, T: Table>(
    alloc: Global,
    table: &T,
    values: &[Value],
) -> Result<Vec<M>, Refusal> {
    let mut list = Vec::new(alloc);
    for value in values {
        let member = M::of(table, *value).ok_or(Refusal::Condition)?;
        list.push(member)?;
    }
    Ok(list)
}

/// The list of the values that the word makes: of arguments, of clauses or of bounds.
fn list_of<T: Table>(
    alloc: Global,
    table: &T,
    word: &str,
    values: &[Value],
) -> Result<Part, Refusal> {
    match word {
        "preds" => Ok(Part::Preds(collected(alloc, table, values)?)),
        "env" => Ok(Part::Env(collected(alloc, table, values)?)),
        _ => Ok(Part::Args(collected(alloc, table, values)?)),
    }
}
