//! Rows that are asked of an evaluator of rounds, and probes.

use crate::candidates::proving::of_goal;
use crate::context::ir::substituted;
use crate::evaluator::checks;
use crate::evaluator::eval::{asked, made, Operands};
use crate::evaluator::evaluator::MODES;
use crate::notation::answers::{Answer, Item, Items};
use crate::notation::reader::Reader;
use crate::notation::refusals::{Refusal, WordPlace};
use crate::notation::rows::Row;
use crate::notation::tables::value_of;
use crate::notation::values::Value;
use crate::rounds::asking::{self, Evaluator};
use crate::rounds::listing::listed;
use crate::rounds::run::{Phase, Session};
use crate::rounds::words::{refuse_unknown_asking_evaluator, refuse_unknown_over_context};
use candidate_eval::eval::context::{EvalCtxt, ProbeKind};
use candidate_eval::eval::mode::TypingMode;
use candidate_ir::decl::context::Cx;
use candidate_ir::decl::make::Make;
use candidate_ir::ir::kinds::{AssocId, Ty};
use candidate_rounds::rounds::Rounds;
use kit::prelude::*;

/// How deep probes may be nested.
const NESTED: u32 = 8;

/// What stands beside aliases: nothing, or what is listed for the associated type of that name.
pub(crate) fn pairs_for(
    reader: &Reader<'_>,
    cx: &mut Cx,
    name: &str,
) -> Result<Vec<(Ty, Ty)>, Refusal> {
    if name.is_empty() {
        return Ok(Vec::new(reader.alloc));
    }
    listed(reader.alloc, cx, AssocId(reader.number(name)))
}

/// The mode of an evaluator, and what stands beside aliases, as the row says.
fn asked_for(
    reader: &Reader<'_>,
    cx: &mut Cx,
    row: Row<'_>,
) -> Result<(TypingMode, Vec<(Ty, Ty)>), Refusal> {
    refuse_unknown_over_context(row)?;
    let mode = value_of(&MODES, row.first).ok_or(Refusal::UnknownWord(WordPlace::Row(1)))?;
    let pairs = pairs_for(reader, cx, row.second)?;
    Ok((mode, pairs))
}

impl<'a> Session<'a> {
    /// Begins an evaluator over the context, in the mode that the row says.
    pub(crate) fn begin_rounds(&mut self, mut cx: Cx, row: Row<'a>) -> Phase {
        match self.settings(&mut cx, row) {
            Ok((mode, pairs)) => {
                let alloc = self.rows.reader.alloc;
                let rounds = Rounds::new(alloc, cx, mode, pairs, Vec::new(alloc));
                Phase::Evaluating(Evaluator { rounds })
            }
            Err(_) => Phase::declared(cx),
        }
    }

    /// What the row asks an evaluator to begin with, where it can be had; that is printed.
    fn settings(
        &mut self,
        cx: &mut Cx,
        row: Row<'a>,
    ) -> Result<(TypingMode, Vec<(Ty, Ty)>), Refusal> {
        match asked_for(&self.rows.reader, cx, row) {
            Ok(found) => {
                self.rows.print_done();
                Ok(found)
            }
            Err(refusal) => {
                if self.rows.print(None, Err(refusal)) {
                    return asked_for(&self.rows.reader, cx, row);
                }
                Err(refusal)
            }
        }
    }

    /// Ends the evaluator, and says how many pairs and opaque types it was given.
    pub(crate) fn leave(&mut self, rounds: Rounds) -> Cx {
        let (cx, normal, opaques) = rounds.into_parts();
        let mut counts = Items::new(self.rows.reader.alloc);
        counts.push(Item::Count(normal.len()));
        counts.push(Item::Count(opaques.len()));
        self.rows.print(None, counts.list());
        cx
    }

    /// Answers a row that is asked of an evaluator.
    pub(crate) fn evaluate(&mut self, evaluator: &mut Evaluator, row: Row<'a>) {
        if row.verb == "probe" {
            self.probe(&mut evaluator.rounds, row, NESTED);
            return;
        }
        let outcome = self.ask_evaluator(evaluator, row);
        if self.rows.print(Some(evaluator.rounds.cx()), outcome) {
            let _ = self.ask_evaluator(evaluator, row);
        }
    }

    /// What a row answers whose operands are made first.
    fn ask_evaluator(
        &mut self,
        evaluator: &mut Evaluator,
        row: Row<'a>,
    ) -> Result<Answer, Refusal> {
        refuse_unknown_asking_evaluator(row)?;
        let reader = &mut self.rows.reader;
        let alloc = reader.alloc;
        match row.verb {
            "let" => reader.name_node(evaluator, row),
            "check" | "asks" | "knowable" => {
                let asked = asked(reader, evaluator, row)?;
                checks::answer(alloc, &mut evaluator.rounds, row, asked)
            }
            "known" => {
                let reference = reader.operand(evaluator, row.left)?.reference();
                checks::known_to(alloc, &mut evaluator.rounds, reference)
            }
            "subst" => {
                let of = made(reader, evaluator, row)?;
                substituted(alloc, &mut evaluator.rounds, Value::Node(of.left), of.right)
            }
            "prove" => {
                let of = made(reader, evaluator, row)?;
                of_goal(alloc, &mut evaluator.rounds, row, of)
            }
            _ => {
                let of = made(reader, evaluator, row)?;
                asking::answer(reader, &mut evaluator.rounds, row, of)
            }
        }
    }

    /// What a row answers each of whose operands is a name.
    fn ask_by_names(&mut self, rounds: &mut Rounds, row: Row<'a>) -> Result<Answer, Refusal> {
        refuse_unknown_asking_evaluator(row)?;
        let reader = &self.rows.reader;
        let of = Operands {
            left: reader.number(row.left),
            right: reader.number(row.right),
            third: reader.number(row.third),
        };
        asking::answer(reader, rounds, row, of)
    }

    /// Answers the rows up to `end` in a probe. Their operands are names, since nothing is made in a probe but by a call.
    fn probe(&mut self, rounds: &mut Rounds, row: Row<'a>, depth: u32) {
        if let Err(refusal) = refuse_unknown_asking_evaluator(row) {
            self.rows.print(None, Err(refusal));
            return;
        }
        let kind = if row.first == "aside" {
            ProbeKind::SetAside
        } else {
            ProbeKind::Kept
        };
        match EvalCtxt::begin_probe(rounds, kind) {
            Ok(probe) => {
                self.answer_in_probe(rounds, depth);
                let usages = EvalCtxt::end_probe(rounds, probe);
                EvalCtxt::ignore_candidate_head_usages(rounds, usages);
                self.rows.print_done();
            }
            Err(stop) => {
                self.rows.print(None, Err(Refusal::Stop(stop)));
            }
        }
    }

    /// Answers the rows up to `end`, which is printed without its answer.
    fn answer_in_probe(&mut self, rounds: &mut Rounds, depth: u32) {
        self.rows.print_done();
        for _ in 0..u64::MAX {
            let Some(row) = self.rows.next_row() else {
                break;
            };
            if row.verb == "end" {
                break;
            }
            if row.verb == "probe" && depth > 0 {
                self.probe(rounds, row, depth - 1);
            } else {
                self.evaluate_by_names(rounds, row);
            }
        }
    }

    /// Answers a row each of whose operands is a name.
    fn evaluate_by_names(&mut self, rounds: &mut Rounds, row: Row<'a>) {
        let outcome = self.ask_by_names(rounds, row);
        if self.rows.print(Some(rounds.cx()), outcome) {
            let _ = self.ask_by_names(rounds, row);
        }
    }
}
