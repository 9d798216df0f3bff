//! Rows that note candidates, and ask which of them win and what they come to.

use crate::candidates::considering::{found_rows, source_of};
use crate::evaluator::eval;
use crate::evaluator::merging::{certainty, push_response};
use crate::evaluator::refusals::{or_refusal, Reason};
use crate::notation::answers::{Answer, Item, Items};
use crate::notation::reader::Reader;
use crate::notation::refusals::{Refusal, WordPlace};
use crate::notation::rows::Row;
use crate::notation::tables::{value_of, word_for, UNNAMED};
use crate::notation::typed::{args_at, env_at};
use crate::recorder::Recorder;
use candidate_assembly::assembly::candidates::FailedCandidateInfo;
use candidate_assembly::assembly::merging::TraitGoalProvenVia;
use candidate_assembly::assembly::specialization::{
    filter_specialized_impls, AllowInferenceConstraints,
};
use candidate_assembly::trait_goals::preference::{
    merge_trait_candidates, unsound_prefer_builtin_dyn_impl, CandidatePreferenceMode,
};
use candidate_eval::eval::certainty::Certainty;
use candidate_eval::eval::context::EvalCtxt;
use candidate_eval::eval::refusal::NoSolutionOrStop;
use candidate_eval::eval::response::{Candidate, CandidateHeadUsages, CanonicalResponse};
use candidate_eval::eval::source::{BuiltinImplSource, CandidateSource};
use candidate_ir::decl::context::Cx;
use candidate_ir::decl::make::Make;
use candidate_ir::ir::kinds::TraitId;
use candidate_ir::ir::stop::Stop;
use candidate_ir::ir::trees::Trees;
use kit::alloc::Global;
use kit::prelude::*;

/// The words of preferences.
const PREFERENCES: [(&str, CandidatePreferenceMode); 2] = [
    ("default", CandidatePreferenceMode::Default),
    ("marker", CandidatePreferenceMode::Marker),
];

/// The words of how a goal of a trait is proved, if that is known.
pub(crate) const VIAS: [(&str, Option<TraitGoalProvenVia>); 4] = [
    ("misc", Some(TraitGoalProvenVia::Misc)),
    ("param_env", Some(TraitGoalProvenVia::ParamEnv)),
    ("alias_bound", Some(TraitGoalProvenVia::AliasBound)),
    ("none", None),
];

/// The words of which impls may drive others out.
const ALLOWED: [(&str, AllowInferenceConstraints); 2] = [
    ("any", AllowInferenceConstraints::Yes),
    ("regions", AllowInferenceConstraints::No),
];

/// A candidate that a row noted; its numbers are looked at where it is asked for.
#[derive(Clone, Copy)]
pub struct Note {
    source: CandidateSource,
    certainty: Certainty,
    /// The list of its values.
    values: u32,
    /// The list of its regions, if it has any.
    regions: Option<u32>,
}

/// Notes the candidate of the row's source, certainty, values and regions, and says how many are noted.
fn add_note<'a>(
    reader: &mut Reader<'a>,
    notes: &mut Vec<Note>,
    cx: &mut Cx,
    row: Row<'a>,
) -> Result<Answer, Refusal> {
    let source = source_of(reader, row).ok_or(Refusal::UnknownWord(WordPlace::Row(1)))?;
    reader.unknown = row.left;
    let certainty = certainty(row.left).ok_or(Refusal::UnknownWord(WordPlace::Operand))?;
    let values = reader.operand(cx, row.right)?.node();
    let mut note = Note {
        source,
        certainty,
        values,
        regions: None,
    };
    if !row.third.is_empty() {
        note.regions = Some(reader.operand(cx, row.third)?.node());
    }
    notes.push(note)?;
    Ok(Answer::One(Item::Count(notes.len())))
}

/// Which candidates win for goals of the trait that the row names.
fn preference(reader: &Reader<'_>, cx: &Cx, row: Row<'_>) -> Answer {
    let mode = CandidatePreferenceMode::compute(cx, TraitId(reader.number(row.first)));
    Answer::One(Item::Word(word_for(&PREFERENCES, mode).unwrap_or(UNNAMED)))
}

/// What the row answers in the context, where these candidates are noted: it notes another one, forgets all, or asks for a preference or
/// for what stands in the layers below. A node is noted.
pub fn answer_in_context<'a>(
    reader: &mut Reader<'a>,
    notes: &mut Vec<Note>,
    cx: &mut Cx,
    row: Row<'a>,
) -> Result<Answer, Refusal> {
    match row.verb {
        "candidate" => add_note(reader, notes, cx, row),
        "preference" => Ok(preference(reader, cx, row)),
        "clear" => {
            let answer = eval::answer(reader, cx, row)?;
            notes.clear();
            Ok(answer)
        }
        _ => eval::answer(reader, cx, row),
    }
}

impl Note {
    /// The candidate, of which that number is what it has used. `Refusal::Condition` comes where a number isn't of a list of arguments, or
    /// of clauses.
    fn candidate(self, alloc: Global, cx: &Cx, number: u32) -> Result<Candidate, Refusal> {
        let values = args_at(cx, self.values)?;
        let regions = match self.regions {
            Some(number) => Vec::from_slice(alloc, cx.param_env(env_at(cx, number)?))?,
            None => Vec::new(alloc),
        };
        let result = CanonicalResponse {
            vars: Vec::new(alloc),
            values,
            regions,
            certainty: self.certainty,
        };
        Ok(Candidate {
            source: self.source,
            result,
            head_usages: CandidateHeadUsages::of(alloc, &[number])?,
        })
    }
}

/// The candidates that are noted, each with its number from 1 on as what it has used; `Refusal::Condition` comes where one may not be made.
fn noted(alloc: Global, cx: &Cx, notes: &[Note]) -> Result<Vec<Candidate>, Refusal> {
    let mut candidates = Vec::new(alloc);
    let mut number: u32 = 0;
    for note in notes {
        number = number.saturating_add(1);
        candidates.push(note.candidate(alloc, cx, number)?)?;
    }
    Ok(candidates)
}

/// Whether one of the candidates at most is trivial.
fn has_one_trivial(candidates: &[Candidate]) -> bool {
    let is_trivial = |candidate: &&Candidate| {
        matches!(
            candidate.source,
            CandidateSource::BuiltinImpl(BuiltinImplSource::Trivial)
        )
    };
    candidates.iter().filter(is_trivial).count() <= 1
}

/// How a goal of a trait is proved, if that is known, and its response, if there is one.
pub fn proved<E: Reason>(
    alloc: Global,
    outcome: Result<(CanonicalResponse, Option<TraitGoalProvenVia>), E>,
) -> Result<Answer, Refusal> {
    let (response, via) = or_refusal(outcome)?;
    let mut items = Items::new(alloc);
    items.push(Item::Word(word_for(&VIAS, via).unwrap_or(UNNAMED)));
    push_response(&mut items, &response);
    items.row()
}

/// What the candidates come to, with the preference of that word, beside a clause of the environment that was refused; this one has used
/// the number 0. `Refusal::Condition` comes where more than one of them is trivial.
fn merged<E: EvalCtxt>(
    alloc: Global,
    ecx: &mut E,
    word: &str,
    candidates: Vec<Candidate>,
) -> Result<Result<(CanonicalResponse, Option<TraitGoalProvenVia>), NoSolutionOrStop>, Refusal> {
    let mode = value_of(&PREFERENCES, word).ok_or(Refusal::UnknownWord(WordPlace::Row(2)))?;
    if !has_one_trivial(candidates.as_slice()) {
        return Err(Refusal::Condition);
    }
    let mut failed = FailedCandidateInfo {
        param_env_head_usages: Vec::new(alloc),
    };
    failed
        .param_env_head_usages
        .push(CandidateHeadUsages::of(alloc, &[0])?)?;
    Ok(merge_trait_candidates(ecx, mode, candidates, failed))
}

/// Of which candidates the usages are ignored where these are merged, by their numbers.
fn ignored<E: EvalCtxt>(
    alloc: Global,
    ecx: &mut E,
    word: &str,
    candidates: Vec<Candidate>,
) -> Result<Answer, Refusal> {
    let mut recorder = Recorder::new(alloc, ecx);
    or_refusal(merged(alloc, &mut recorder, word, candidates)?)?;
    if recorder.is_cut() {
        return Err(Refusal::Stop(Stop::Memory));
    }
    let mut items = Items::new(alloc);
    for number in recorder.ignored() {
        items.push(Item::Count(*number as usize));
    }
    items.list()
}

/// What the row asks of the candidates that are noted: which of them stay, what they come to, or of which the usages are ignored then.
pub fn answer<E: EvalCtxt>(
    alloc: Global,
    ecx: &mut E,
    row: Row<'_>,
    notes: &[Note],
) -> Result<Answer, Refusal> {
    let mut candidates = noted(alloc, ecx.cx(), notes)?;
    match row.verb {
        "unspecialized" => {
            let allow =
                value_of(&ALLOWED, row.second).ok_or(Refusal::UnknownWord(WordPlace::Row(2)))?;
            filter_specialized_impls(ecx, allow, &mut candidates);
        }
        "objects" => unsound_prefer_builtin_dyn_impl(ecx, &mut candidates),
        "ignored" => return ignored(alloc, ecx, row.second, candidates),
        _ => {
            let outcome = merged(alloc, ecx, row.second, candidates)?;
            return proved(alloc, outcome);
        }
    }
    found_rows(alloc, candidates.as_slice())
}
