//! Rows that ask an evaluator of rounds.

use crate::candidates::considering;
use crate::context::lookups::listed;
use crate::evaluator::eval::Operands;
use crate::evaluator::evaluator::{self, sides_at, VARIABLES};
use crate::evaluator::merging::{certainty, responded};
use crate::evaluator::refusals::or_refusal;
use crate::notation::answers::{node, Answer, Item};
use crate::notation::parts::{make_in, Part, Table};
use crate::notation::reader::Reader;
use crate::notation::refusals::Refusal;
use crate::notation::rows::Row;
use crate::notation::tables::value_of;
use crate::notation::typed::ty_at;
use crate::rounds::{explaining, projecting, tabling};
use candidate_eval::eval::certainty::Certainty;
use candidate_eval::eval::context::{EvalCtxt, ProbeKind};
use candidate_eval::eval::InferCtxtLike;
use candidate_ir::decl::make::{Build, Make};
use candidate_ir::ir::heads::Head;
use candidate_ir::ir::stop::Stop;
use candidate_rounds::rounds::Rounds;
use kit::alloc::Global;
use kit::prelude::*;

/// An evaluator of rounds, in whose context operands are made.
pub(crate) struct Evaluator {
    pub(crate) rounds: Rounds,
}

impl Table for Evaluator {
    fn head_at(&self, number: u32) -> Option<Head> {
        self.rounds.cx().head_at(number)
    }

    fn make(&mut self, part: &Part) -> Result<Option<u32>, Stop> {
        make_in(&mut self.rounds, part)
    }
}

/// The constraints of regions that are recorded where both sides are equal.
fn recorded(alloc: Global, rounds: &mut Rounds, of: Operands) -> Result<Answer, Refusal> {
    let (env, left, right) = sides_at(rounds.cx(), of)?;
    or_refusal(rounds.eq(env, left, right))?;
    let response = rounds.make_canonical_response(alloc, Certainty::Yes)?;
    listed(alloc, response.regions.as_slice())
}

/// The same in a probe, where nothing is taken as given.
fn equal(alloc: Global, rounds: &mut Rounds, left: u32, right: u32) -> Result<Answer, Refusal> {
    let sides = Operands {
        left: rounds.mk_param_env(&[])?.0,
        right: left,
        third: right,
    };
    let probe = EvalCtxt::begin_probe(rounds, ProbeKind::Kept)?;
    let answer = recorded(alloc, rounds, sides);
    let usages = EvalCtxt::end_probe(rounds, probe);
    EvalCtxt::ignore_candidate_head_usages(rounds, usages);
    answer
}

/// What the row asks of the evaluator of rounds, in a probe or outside of one.
pub fn answer(
    reader: &Reader<'_>,
    rounds: &mut Rounds,
    row: Row<'_>,
    of: Operands,
) -> Result<Answer, Refusal> {
    let alloc = reader.alloc;
    match row.verb {
        "root" => {
            let kind = value_of(&VARIABLES, row.first).ok_or(Refusal::Condition)?;
            node(rounds.new_root_var(kind))
        }
        "shallow" => {
            let ty = ty_at(rounds.cx(), of.left)?;
            Ok(Answer::One(Item::Node(rounds.shallow_resolve(ty).0)))
        }
        "response" => {
            let asked = certainty(row.first).unwrap_or(Certainty::Yes);
            responded(alloc, rounds.make_canonical_response(alloc, asked))
        }
        "equal" => equal(alloc, rounds, of.left, of.right),
        "run" | "step" | "entry" | "candidates" | "may_be_run" => {
            tabling::answer(alloc, rounds, row, of)
        }
        "projection" => projecting::answer(alloc, rounds, row, of),
        "derivation" => explaining::answer(alloc, rounds, row, of),
        "consider" | "forced" | "characterize" | "about" | "passes" | "additional" => {
            considering::answer(reader, rounds, row, of)
        }
        _ => evaluator::answer(reader, rounds, row, of),
    }
}
