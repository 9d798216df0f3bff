//! Which words rows that ask what stands over a context may have, and rows that ask an evaluator, by their verbs.

use crate::notation::refusals::Refusal;
use crate::notation::rows::Row;
use crate::notation::tables::value_of;
use crate::notation::words::refuse_unknown;
use kit::prelude::*;

/// The verbs that ask what stands over a context: how many words behind each name or count something, and which others may stand behind these.
const OVER_CONTEXT: [(&str, (usize, &str)); 25] = [
    ("rounds", (2, "")),
    ("list", (4, "")),
    ("used", (4, "")),
    ("prove", (3, "")),
    ("answer", (3, "bails refuses")),
    ("prefer", (3, "")),
    ("ignored", (3, "")),
    ("unspecialized", (3, "")),
    ("objects", (2, "")),
    ("candidate", (2, "")),
    ("preference", (1, "")),
    (
        "check",
        (
            0,
            "proper compat remote plain refers_to_u8 fails_at_u8 stops_at_u16 holds changes",
        ),
    ),
    (
        "asks",
        (
            0,
            "proper compat remote plain refers_to_u8 fails_at_u8 stops_at_u16 holds changes",
        ),
    ),
    (
        "knowable",
        (
            0,
            "plain refers_to_u8 fails_at_u8 stops_at_u16 holds changes",
        ),
    ),
    ("may_be_listed", (0, "")),
    ("is_plain", (0, "")),
    ("is_local_or_fundamental", (0, "")),
    ("cell", (0, "auto sized meta_sized copy destruct")),
    ("call", (0, "fn fn_mut fn_once")),
    ("const_call", (0, "")),
    ("own_bounds", (0, "")),
    ("requirements", (0, "")),
    ("and", (0, "")),
    ("constraints", (0, "")),
    ("merge", (0, "yes ambiguous overflow suggest keep jank")),
];

/// The verbs that ask an evaluator, in the same way.
const ASKING_EVALUATOR: [(&str, (usize, &str)); 52] = [
    ("let", (1, "")),
    ("rounds", (2, "")),
    ("leave", (0, "")),
    ("probe", (0, "kept aside")),
    ("end", (0, "")),
    ("mode", (0, "")),
    ("root", (0, "general integer floating constant region")),
    ("fresh", (1, "")),
    ("placeholders", (1, "")),
    ("shallow", (0, "")),
    ("resolve", (0, "")),
    ("normalize", (0, "")),
    ("known", (0, "")),
    ("run", (1, "")),
    ("step", (0, "")),
    ("entry", (0, "")),
    ("may_be_run", (0, "")),
    ("candidates", (0, "")),
    ("derivation", (0, "as itself nothing unknowable")),
    ("projection", (1, "")),
    ("eq", (0, "")),
    ("eq_args", (0, "")),
    ("eq_goals", (0, "")),
    ("equal", (0, "")),
    ("goal", (0, "misc where")),
    ("goals", (0, "misc where")),
    ("settle", (0, "")),
    ("respond", (0, "yes ambiguous overflow suggest keep jank")),
    ("response", (0, "yes ambiguous overflow suggest keep jank")),
    ("prove", (0, "")),
    ("bail", (0, "")),
    ("flounder", (0, "")),
    ("hidden", (0, "")),
    ("ignore", (0, "")),
    ("delay", (1, "")),
    ("bugs", (0, "")),
    ("object", (0, "")),
    ("matching", (1, "")),
    ("matches", (1, "")),
    ("pick", (1, "")),
    ("instantiate", (0, "")),
    ("enter", (0, "")),
    ("consider", (2, "")),
    ("forced", (0, "yes ambiguous overflow suggest keep jank")),
    ("characterize", (0, "")),
    ("about", (0, "type reference trait error resolved other")),
    ("passes", (0, "")),
    ("additional", (0, "")),
    (
        "check",
        (
            0,
            "proper compat remote plain refers_to_u8 fails_at_u8 stops_at_u16 holds changes",
        ),
    ),
    (
        "asks",
        (
            0,
            "proper compat remote plain refers_to_u8 fails_at_u8 stops_at_u16 holds changes",
        ),
    ),
    (
        "knowable",
        (
            0,
            "plain refers_to_u8 fails_at_u8 stops_at_u16 holds changes",
        ),
    ),
    ("subst", (0, "")),
];

/// `quiet` may stand behind each verb.
const ALWAYS: &str = "quiet";

/// Refuses a row that asks what stands over a context, where its verb doesn't know one of its words. A row with another verb passes.
pub(crate) fn refuse_unknown_over_context(row: Row<'_>) -> Result<(), Refusal> {
    if value_of(&OVER_CONTEXT, row.verb).is_none() {
        return Ok(());
    }
    refuse_unknown(&OVER_CONTEXT, ALWAYS, row)
}

/// Refuses a row that asks an evaluator, where its verb doesn't know one of its words.
pub(crate) fn refuse_unknown_asking_evaluator(row: Row<'_>) -> Result<(), Refusal> {
    refuse_unknown(&ASKING_EVALUATOR, ALWAYS, row)
}
