//! Which words rows that declare may have, and rows that ask a context, by their verbs.

use crate::notation::refusals::Refusal;
use crate::notation::rows::Row;
use crate::notation::words::refuse_unknown;
use kit::prelude::*;

/// The verbs that declare: how many words behind each name or count something, and which others may stand behind these.
const DECLARING: [(&str, (usize, &str)); 30] = [
    ("let", (1, "")),
    ("crate", (0, "")),
    ("local", (1, "")),
    ("limits", (4, "")),
    (
        "adt",
        (
            2,
            "fundamental phantom_data manually_drop unsafe_fields enum union",
        ),
    ),
    (
        "trait",
        (
            2,
            "auto alias unsafe fundamental dyn_compatible default by_head marker",
        ),
    ),
    ("foreign", (2, "")),
    ("closure", (2, "const")),
    ("assoc", (2, "sized")),
    ("assoc_const", (2, "sized")),
    ("opaque", (2, "")),
    ("inherent", (2, "")),
    ("free", (2, "")),
    ("fn", (2, "const target_features")),
    ("impl", (2, "positive negative reservation")),
    ("field", (1, "")),
    ("constraint", (1, "sized meta_sized")),
    ("destructor", (1, "const not_const")),
    ("unsizing", (2, "")),
    ("super", (1, "")),
    ("where", (1, "")),
    ("bound", (1, "own other")),
    ("iwhere", (1, "")),
    ("super_outlives", (1, "")),
    ("value", (2, "")),
    ("default", (1, "")),
    ("specializes", (2, "")),
    ("lang", (2, "")),
    ("chain", (1, "")),
    ("fan", (1, "")),
];

/// The verbs that ask a context, in the same way. `quiet` may stand behind each.
const ASKING: [(&str, (usize, &str)); 70] = [
    ("let", (1, "")),
    ("member", (0, "")),
    ("clear", (0, "")),
    ("each", (0, "same unify")),
    ("same", (0, "")),
    ("unify", (0, "")),
    ("header", (0, "")),
    ("has", (1, "")),
    ("has_arguments", (0, "")),
    ("compatible", (0, "")),
    ("fits", (0, "")),
    ("has_param", (0, "")),
    ("subst", (0, "")),
    ("fold", (0, "parameters slices stops arg")),
    ("open", (0, "")),
    ("implied", (0, "")),
    ("again", (0, "whole")),
    ("elaborate", (0, "")),
    ("supertraits", (0, "")),
    ("ids", (0, "")),
    ("width", (0, "")),
    ("count", (0, "")),
    ("take_back", (1, "")),
    ("delay", (1, "")),
    ("bugs", (0, "")),
    ("flags", (0, "")),
    ("impls", (1, "")),
    ("show", (0, "")),
    ("sort", (0, "")),
    ("head", (0, "")),
    ("child", (1, "")),
    ("binders", (0, "")),
    ("principal", (0, "")),
    ("variable", (0, "")),
    ("escapes", (0, "")),
    ("mentions", (1, "")),
    ("above", (1, "")),
    ("arg_escapes", (0, "")),
    ("limits", (0, "")),
    ("supers", (1, "")),
    ("wheres", (1, "")),
    ("bounds", (1, "")),
    ("other_bounds", (1, "")),
    ("impls_of", (1, "")),
    ("fields", (1, "")),
    ("items", (1, "")),
    ("unsizing", (1, "")),
    ("impl_parameters", (1, "")),
    ("impl_wheres", (1, "")),
    ("impl_super_outlives", (1, "")),
    ("impl_values", (1, "")),
    ("specialized", (1, "")),
    ("fn_sig", (1, "")),
    ("constraint", (1, "sized meta_sized")),
    ("hidden", (1, "")),
    ("item_trait", (1, "")),
    ("impl_ref", (1, "")),
    ("lang_item", (1, "")),
    ("destructor", (1, "")),
    ("shape", (1, "")),
    ("item_kind", (1, "")),
    ("polarity", (1, "")),
    ("needs_sized", (1, "")),
    ("is_default", (1, "")),
    ("is_const_closure", (1, "")),
    ("is_local", (1, "")),
    ("is_fundamental", (1, "")),
    (
        "adt_flag",
        (1, "fundamental phantom_data manually_drop unsafe_fields"),
    ),
    (
        "trait_flag",
        (
            1,
            "auto alias unsafe fundamental dyn_compatible default by_head marker",
        ),
    ),
    ("fn_flag", (1, "const target_features")),
];

/// Refuses a row that declares, where its verb doesn't know one of its words.
pub(crate) fn refuse_unknown_declaring(row: Row<'_>) -> Result<(), Refusal> {
    refuse_unknown(&DECLARING, "", row)
}

/// Refuses a row that asks a context, where its verb doesn't know one of its words.
pub(crate) fn refuse_unknown_asking(row: Row<'_>) -> Result<(), Refusal> {
    refuse_unknown(&ASKING, "quiet", row)
}
