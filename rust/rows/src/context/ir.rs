//! Rows that call what a context can.

use crate::context::declaring::lang_item;
use crate::context::lookups::{held, listed_answer, said_of};
use crate::context::words::refuse_unknown_asking;
use crate::notation::answers::{node, Answer, Item, Items};
use crate::notation::leaves::number_in;
use crate::notation::parts::{is_at, make, sort_at, NodeSort, Part};
use crate::notation::reader::Reader;
use crate::notation::refusals::{Refusal, WordPlace};
use crate::notation::rows::Row;
use crate::notation::tables::value_of;
use crate::notation::terms::{term_at, Term};
use crate::notation::typed::{args_at, ty_at};
use crate::notation::values::Value;
use candidate_ir::decl::context::Cx;
use candidate_ir::decl::elaborate::{elaborate, implied, supertrait_def_ids, supertraits};
use candidate_ir::decl::fold::fold;
use candidate_ir::decl::make::{Build, Make};
use candidate_ir::decl::open::{binder_kinds, open_clause};
use candidate_ir::decl::parameters::has_arguments;
use candidate_ir::decl::subst::subst;
use candidate_ir::decl::unify_count::UnifyCount;
use candidate_ir::ir::flags::TypeFlags;
use candidate_ir::ir::heads::Flag;
use candidate_ir::ir::kinds::{
    Args, Binder, Clause, Const, ExistentialPredicate, FnId, GenericArg, ParamEnv, Preds, Region,
    Sig, TraitId, TraitRef, Ty, TyKind, UintTy, VarKind, Vars,
};
use candidate_ir::ir::stop::Stop;
use candidate_ir::ir::trees::Trees;
use candidate_ir::ir::unify::RightSide;
use kit::alloc::{AllocError, Global};
use kit::prelude::*;

/// Whether two nodes of one sort are equal, or may be equal where the second is of that side.
fn compared(cx: &Cx, right: Option<RightSide>, a: u32, b: u32) -> Option<bool> {
    if sort_at(cx, a)? != sort_at(cx, b)? {
        return None;
    }
    match (term_at(cx, a)?, term_at(cx, b)?, right) {
        (a, b, None) => Some(cx.same(a, b)),
        (Term::Args(a), Term::Args(b), Some(right)) => Some(cx.args_may_unify(a, b, right)),
        (Term::Ty(a), Term::Ty(b), Some(right)) => Some(cx.may_unify(a, b, right)),
        (Term::Const(a), Term::Const(b), Some(right)) => Some(cx.may_unify(a, b, right)),
        _ => None,
    }
}

/// Whether each parameter of the value has an argument in the list.
fn have_arguments(cx: &Cx, value: Value, list: u32) -> Option<bool> {
    let args = args_at(cx, list).ok()?;
    Some(has_arguments(cx, value.term(cx)?, args))
}

/// The value with the list's arguments in the place of its parameters.
pub fn substituted<M: Make>(
    alloc: Global,
    make: &mut M,
    value: Value,
    list: u32,
) -> Result<Answer, Refusal> {
    let args = args_at(make.cx(), list)?;
    let term = value.term(make.cx()).ok_or(Refusal::Condition)?;
    if !has_arguments(make.cx(), term, args) {
        return Err(Refusal::Condition);
    }
    let made = subst(alloc, make, term, args)?;
    Ok(Answer::One(value.remade(made)))
}

/// What a fold of that way puts in the place of an argument under so many binders. By `parameters` it is a byte for each parameter,
/// and a wider number under a binder; by `slices` a byte for each slice, and a wider number for each parameter; by `stops` it stops
/// at each parameter.
fn replaced(
    cx: &mut Cx,
    arg: GenericArg,
    binders: u32,
    way: &str,
) -> Result<Option<GenericArg>, Stop> {
    let GenericArg::Ty(ty) = arg else {
        return Ok(None);
    };
    let width = match (way, cx.kind(ty)) {
        ("stops", TyKind::Param(_)) => return Err(Stop::EvaluatorLimit),
        ("slices", TyKind::Slice(_)) => UintTy::U8,
        ("parameters", TyKind::Param(_)) if binders == 0 => UintTy::U8,
        (_, TyKind::Param(_)) => UintTy::U16,
        _ => return Ok(None),
    };
    match cx.mk_ty(TyKind::Uint(width)) {
        Ok(made) => Ok(Some(GenericArg::Ty(made))),
        Err(stop) => Err(stop),
    }
}

/// The value with what that way puts in; of a type, where it is asked so, by the fold of an argument.
fn folded(
    alloc: Global,
    cx: &mut Cx,
    value: Value,
    way: &str,
    as_arg: bool,
) -> Result<Answer, Refusal> {
    let ask = |cx: &mut Cx, arg: GenericArg, binders: u32| -> Result<Option<GenericArg>, Stop> {
        replaced(cx, arg, binders, way)
    };
    match value.term(cx).ok_or(Refusal::Condition)? {
        Term::Ty(ty) if as_arg => node(fold(alloc, cx, GenericArg::Ty(ty), ask)),
        term => {
            let made = fold(alloc, cx, term, ask)?;
            Ok(Answer::One(value.remade(made)))
        }
    }
}

/// The list as it is read.
fn list_at(alloc: Global, cx: &Cx, a: u32) -> Result<Part, Refusal> {
    Ok(match sort_at(cx, a) {
        Some(NodeSort::Args) => Part::Args(cx.args(Args(a)).kit_to_vec(alloc)?),
        Some(NodeSort::Env) => Part::Env(cx.param_env(ParamEnv(a)).kit_to_vec(alloc)?),
        Some(NodeSort::Vars) => Part::Vars(kinds_of(alloc, cx, Vars(a))?),
        Some(NodeSort::Preds) => Part::Preds(bounds_of(alloc, cx, Preds(a))?),
        _ => return Err(Refusal::Condition),
    })
}

/// The node as it is read.
fn part_at(alloc: Global, cx: &Cx, a: u32) -> Result<Part, Refusal> {
    match sort_at(cx, a) {
        Some(NodeSort::Ty) => Ok(Part::Ty(cx.kind(Ty(a)))),
        Some(NodeSort::Const) => Ok(Part::Const(cx.const_kind(Const(a)))),
        Some(NodeSort::Region) => Ok(Part::Region(cx.region_kind(Region(a)))),
        Some(NodeSort::Sig) => Ok(Part::Sig(cx.sig(Sig(a)))),
        Some(NodeSort::Clause) => Ok(Part::Clause(cx.clause(Clause(a)))),
        _ => list_at(alloc, cx, a),
    }
}

/// The node as it is read, made again; of a list of arguments, where it is asked so, as one that the context keeps.
fn again(alloc: Global, cx: &mut Cx, a: u32, whole: bool) -> Result<Answer, Refusal> {
    let part = part_at(alloc, cx, a)?;
    if whole && is_at(cx, a, NodeSort::Args) {
        let list = cx.args(Args(a)).kit_to_vec(alloc)?;
        return node(cx.mk_arg_list(list));
    }
    Ok(Answer::One(Item::Node(make(cx, &part)?)))
}

/// The kinds of a binder's variables.
fn kinds_of(alloc: Global, cx: &Cx, vars: Vars) -> Result<Vec<VarKind>, AllocError> {
    let mut kinds = Vec::new(alloc);
    for var in cx.vars(vars) {
        if is_at(cx, var.0, NodeSort::Var) {
            kinds.push(cx.var(*var))?;
        }
    }
    Ok(kinds)
}

/// The bounds of a list.
fn bounds_of(
    alloc: Global,
    cx: &Cx,
    preds: Preds,
) -> Result<Vec<Binder<ExistentialPredicate>>, AllocError> {
    let mut bounds = Vec::new(alloc);
    for pred in cx.preds(preds) {
        if is_at(cx, pred.0, NodeSort::Pred) {
            bounds.push(cx.pred(*pred))?;
        }
    }
    Ok(bounds)
}

/// The words of flags.
const FLAGS: [(&str, Flag); 12] = [
    ("ty_infer", Flag::TyInfer),
    ("region_infer", Flag::RegionInfer),
    ("const_infer", Flag::ConstInfer),
    ("ty_placeholder", Flag::TyPlaceholder),
    ("region_placeholder", Flag::RegionPlaceholder),
    ("const_placeholder", Flag::ConstPlaceholder),
    ("ty_bound", Flag::TyBound),
    ("region_bound", Flag::RegionBound),
    ("const_bound", Flag::ConstBound),
    ("param", Flag::Param),
    ("alias", Flag::Alias),
    ("error", Flag::Error),
];

/// The words of the flags of types; the last two stand for all of a sort.
const TYPE_FLAGS: [(&str, TypeFlags); 14] = [
    ("ty_infer", TypeFlags::HAS_TY_INFER),
    ("region_infer", TypeFlags::HAS_RE_INFER),
    ("const_infer", TypeFlags::HAS_CT_INFER),
    ("ty_placeholder", TypeFlags::HAS_TY_PLACEHOLDER),
    ("region_placeholder", TypeFlags::HAS_RE_PLACEHOLDER),
    ("const_placeholder", TypeFlags::HAS_CT_PLACEHOLDER),
    ("ty_bound", TypeFlags::HAS_TY_BOUND),
    ("region_bound", TypeFlags::HAS_RE_BOUND),
    ("const_bound", TypeFlags::HAS_CT_BOUND),
    ("param", TypeFlags::HAS_PARAM),
    ("alias", TypeFlags::HAS_ALIAS),
    ("error", TypeFlags::HAS_ERROR),
    ("infer", TypeFlags::HAS_INFER),
    ("placeholder", TypeFlags::HAS_PLACEHOLDER),
];

/// Whether the flag of the word is in the node.
fn has(cx: &Cx, a: u32, word: &str) -> Option<bool> {
    Some(cx.has(term_at(cx, a)?, value_of(&FLAGS, word)?))
}

/// The words of the type's flags, and those of all flags of a sort where it has them.
fn flags(alloc: Global, cx: &Cx, a: u32) -> Result<Answer, Refusal> {
    if !is_at(cx, a, NodeSort::Ty) {
        return Err(Refusal::Condition);
    }
    let flags = cx.flags(Ty(a)).0;
    let mut items = Items::new(alloc);
    for (word, flag) in TYPE_FLAGS {
        if flags & flag.0 == flag.0 {
            items.push(Item::Word(word));
        }
    }
    items.list()
}

/// Whether a type is a variable, and whether it stays as it is whatever is known.
fn sort_of(kind: TyKind) -> &'static str {
    match (kind.is_ty_var(), kind.is_known_rigid()) {
        (true, false) => "variable",
        (false, true) => "rigid",
        (false, false) => "neither",
        (true, true) => "both",
    }
}

/// What is said of a node by its sort.
fn said_by_sort(cx: &Cx, verb: &str, a: u32) -> Option<Item> {
    match (verb, sort_at(cx, a)?) {
        ("sort", NodeSort::Ty) => Some(Item::Word(sort_of(cx.kind(Ty(a))))),
        ("principal", NodeSort::Preds) => Some(Item::Definition(cx.principal(Preds(a))?.0)),
        ("escapes", _) => Some(Item::Truth(cx.has_escaping_bound_vars(term_at(cx, a)?))),
        _ => None,
    }
}

/// What is said of a type, a constant or a region as an argument; the number is a variable's, or a universe.
fn said_of_argument(cx: &Cx, verb: &str, arg: GenericArg, number: u32) -> Option<Item> {
    match verb {
        "mentions" => Some(Item::Truth(cx.mentions(arg, number))),
        "above" => Some(Item::Truth(cx.has_placeholder_above(arg, number))),
        "arg_escapes" => Some(Item::Truth(cx.has_escaping_bound_vars(arg))),
        "variable" => match cx.variable_number(arg) {
            Some(variable) => Some(Item::Count(variable as usize)),
            None => None,
        },
        _ => None,
    }
}

/// What is said of one node; the number is a variable's, a universe or a place.
fn said(cx: &Cx, verb: &str, a: u32, number: u32) -> Option<Item> {
    match verb {
        "head" => Some(Item::Head(cx.head(a))),
        "binders" => Some(Item::Count(cx.head(a).binders() as usize)),
        "child" => match cx.child(a, number as usize) {
            Some(child) => Some(Item::Node(child)),
            None => None,
        },
        "sort" | "escapes" | "principal" => said_by_sort(cx, verb, a),
        _ => match cx.argument(a) {
            Some(arg) => said_of_argument(cx, verb, arg, number),
            None => None,
        },
    }
}

/// Letters that say of each member whether the node is equal to it, or may be.
fn letters(
    alloc: Global,
    cx: &Cx,
    members: &[u32],
    how: &str,
    a: u32,
) -> Result<String, AllocError> {
    let (plain, header) = match how {
        "unify" => (Some(RightSide::Plain), Some(RightSide::Header)),
        _ => (None, None),
    };
    let mut text = String::new(alloc);
    for b in members {
        let letter = match (compared(cx, plain, a, *b), compared(cx, header, a, *b)) {
            (Some(true), Some(true)) => 'y',
            (Some(false), Some(true)) => 'h',
            (Some(false), Some(false)) => 'n',
            _ => '?',
        };
        text.push(letter)?;
    }
    Ok(text)
}

/// What follows from the clause, by the verb: clauses, or the traits of its supertraits; or how many variables its binder has.
fn following(alloc: Global, cx: &mut Cx, verb: &str, number: u32) -> Result<Answer, Refusal> {
    if !is_at(cx, number, NodeSort::Clause) {
        return Err(Refusal::Condition);
    }
    let clause = Clause(number);
    match verb {
        "elaborate" => listed_answer(alloc, elaborate(alloc, cx, &[clause])),
        "supertraits" => listed_answer(alloc, supertraits(alloc, cx, clause)),
        "ids" => listed_answer(alloc, supertrait_def_ids(alloc, cx, clause)),
        _ => {
            let kinds = binder_kinds(alloc, cx, clause)?;
            Ok(Answer::One(Item::Count(kinds.len())))
        }
    }
}

/// The clause out of its binder, with the list's values in the place of its variables; or what it says as a super clause of the list,
/// which stands under a binder of these variables.
fn instance(
    alloc: Global,
    cx: &mut Cx,
    vars: Option<u32>,
    list: u32,
    clause: u32,
) -> Result<Answer, Refusal> {
    if !is_at(cx, list, NodeSort::Args) || !is_at(cx, clause, NodeSort::Clause) {
        return Err(Refusal::Condition);
    }
    let (args, of) = (Args(list), Clause(clause));
    let Some(vars) = vars else {
        let opened = open_clause(alloc, cx, of, args)?;
        return Ok(Answer::One(Item::Node(opened.0)));
    };
    if !is_at(cx, vars, NodeSort::Vars) || !has_arguments(cx, of, args) {
        return Err(Refusal::Condition);
    }
    let said = implied(alloc, cx, Vars(vars), args, of)?;
    Ok(Answer::One(Item::Node(said.0)))
}

/// The impls of the trait that may be for the type, or where no type is said, those that are for any.
fn impls(alloc: Global, cx: &Cx, of: u32, ty: Value) -> Result<Answer, Refusal> {
    if let Value::Nothing = ty {
        return listed_answer(alloc, cx.for_each_blanket_impl(TraitId(of)));
    }
    let ty = ty_at(cx, ty.node())?;
    let mut count = UnifyCount::new();
    listed_answer(
        alloc,
        cx.for_each_relevant_impl(TraitId(of), ty, &mut count),
    )
}

/// The faults that were put off.
pub fn bugs(alloc: Global, cx: &Cx) -> Result<Answer, Refusal> {
    let mut text = String::new(alloc);
    for bug in cx.delayed_bugs() {
        text.push_str(bug.as_str())?;
        text.push_str(";")?;
    }
    Ok(Answer::Text(text))
}

/// Whether what the row asks holds, if it is asked of nodes that it may be asked of.
fn holds(cx: &Cx, row: Row<'_>, left: Value, right: Value) -> Option<bool> {
    let (a, b) = (left.node(), right.node());
    match (row.verb, left) {
        ("same", _) => compared(cx, None, a, b),
        ("unify", _) => compared(cx, Some(RightSide::Plain), a, b),
        ("header", _) => compared(cx, Some(RightSide::Header), a, b),
        ("has", _) => has(cx, a, row.first),
        ("has_arguments", _) => have_arguments(cx, left, b),
        ("compatible", Value::Signature(sig)) => Some(sig.value.is_fn_trait_compatible()),
        ("fits", Value::Reference(of)) if is_at(cx, of.args.0, NodeSort::Args) => {
            Some(cx.trait_ref_args_fit(of))
        }
        ("has_param", Value::Reference(of)) if is_at(cx, of.args.0, NodeSort::Args) => {
            Some(cx.has_param(of))
        }
        _ => None,
    }
}

/// What the row makes of its operands.
fn changed(
    alloc: Global,
    cx: &mut Cx,
    row: Row<'_>,
    left: Value,
    (b, third): (u32, u32),
) -> Result<Answer, Refusal> {
    let a = left.node();
    match row.verb {
        "subst" => substituted(alloc, cx, left, b),
        "fold" => folded(alloc, cx, left, row.first, row.has("arg")),
        "open" => instance(alloc, cx, None, b, a),
        "implied" => instance(alloc, cx, Some(a), b, third),
        _ => again(alloc, cx, a, row.has("whole")),
    }
}

/// What is said of the row's node, if there is one.
fn asked_of_node(cx: &Cx, row: Row<'_>, a: u32) -> Answer {
    if (a as usize) >= cx.node_count() {
        return Answer::One(Item::Nothing);
    }
    let item = said(cx, row.verb, a, number_in(row.first));
    Answer::One(item.unwrap_or(Item::Nothing))
}

/// Nodes that are taken back, and how many there are then; a fault that is put off, and all of them.
fn asked_of_context(alloc: Global, cx: &mut Cx, row: Row<'_>) -> Result<Answer, Refusal> {
    match row.verb {
        "take_back" => cx.truncate(number_in(row.first) as usize),
        "delay" => {
            cx.delay_bug(row.first)?;
            return Ok(Answer::One(Item::Done));
        }
        "bugs" => return bugs(alloc, cx),
        _ => {}
    }
    Ok(Answer::One(Item::Count(cx.node_count())))
}

/// What is read of the definition of that number.
fn asked_of_declarations(
    alloc: Global,
    cx: &mut Cx,
    row: Row<'_>,
    of: u32,
) -> Result<Answer, Refusal> {
    if let Some(answer) = held(alloc, cx, row.verb, of) {
        return answer;
    }
    if row.verb == "fn_sig" {
        let Some(sig) = cx.fn_sig(FnId(of)) else {
            return Ok(Answer::One(Item::Nothing));
        };
        let pointer = Part::Ty(TyKind::FnPtr(sig));
        return Ok(Answer::One(Item::Node(make(cx, &pointer)?)));
    }
    Ok(Answer::One(said_of(cx, row, of).unwrap_or(Item::Nothing)))
}

/// What a row asks a context about.
#[derive(Clone, Copy)]
enum Subject {
    Members,
    Truth,
    Change,
    Following,
    Counts,
    Flags,
    Impls,
    Node,
}

/// The verbs, and what each asks about; others ask about declarations, or of a node.
const SUBJECTS: [(&str, Subject); 27] = [
    ("member", Subject::Members),
    ("clear", Subject::Members),
    ("each", Subject::Members),
    ("same", Subject::Truth),
    ("unify", Subject::Truth),
    ("header", Subject::Truth),
    ("has", Subject::Truth),
    ("has_arguments", Subject::Truth),
    ("compatible", Subject::Truth),
    ("fits", Subject::Truth),
    ("has_param", Subject::Truth),
    ("subst", Subject::Change),
    ("fold", Subject::Change),
    ("open", Subject::Change),
    ("implied", Subject::Change),
    ("again", Subject::Change),
    ("elaborate", Subject::Following),
    ("supertraits", Subject::Following),
    ("ids", Subject::Following),
    ("width", Subject::Following),
    ("count", Subject::Counts),
    ("take_back", Subject::Counts),
    ("delay", Subject::Counts),
    ("bugs", Subject::Counts),
    ("flags", Subject::Flags),
    ("impls", Subject::Impls),
    ("show", Subject::Node),
];

/// What the row answers in the context; a node is noted.
pub fn answer<'a>(reader: &mut Reader<'a>, cx: &mut Cx, row: Row<'a>) -> Result<Answer, Refusal> {
    let outcome = answer_of_context(reader, cx, row);
    reader.noted(row, outcome)
}

/// Whether the row's first word is one of those that its verb chooses among.
fn chooses(row: Row<'_>) -> bool {
    match row.verb {
        "has" => value_of(&FLAGS, row.first).is_some(),
        "lang_item" => lang_item(row.first).is_some(),
        _ => true,
    }
}

/// What the row answers in the context.
fn answer_of_context<'a>(
    reader: &mut Reader<'a>,
    cx: &mut Cx,
    row: Row<'a>,
) -> Result<Answer, Refusal> {
    refuse_unknown_asking(row)?;
    if !chooses(row) {
        return Err(Refusal::UnknownWord(WordPlace::Row(1)));
    }
    if row.verb == "let" {
        return reader.name_node(cx, row);
    }
    let [left, right, third] = reader.operands(cx, row)?;
    let (alloc, a) = (reader.alloc, left.node());
    match value_of(&SUBJECTS, row.verb) {
        Some(Subject::Members) => answer_of_members(reader, cx, row, a),
        Some(Subject::Truth) => match holds(cx, row, left, right) {
            Some(truth) => Ok(Answer::One(Item::Truth(truth))),
            None => Err(Refusal::Condition),
        },
        Some(Subject::Change) => changed(alloc, cx, row, left, (right.node(), third.node())),
        Some(Subject::Following) => following(alloc, cx, row.verb, a),
        Some(Subject::Counts) => asked_of_context(alloc, cx, row),
        Some(Subject::Flags) => flags(alloc, cx, a),
        Some(Subject::Impls) => impls(alloc, cx, reader.number(row.first), left),
        Some(Subject::Node) => Ok(Answer::One(Item::Node(a))),
        None if row.left.is_empty() => {
            asked_of_declarations(alloc, cx, row, reader.number(row.first))
        }
        None => Ok(asked_of_node(cx, row, a)),
    }
}

/// Notes the node, or forgets all; or says in letters whether the node is equal to each of those that were noted, or may be: `h` where it
/// may be only where that is of a header.
fn answer_of_members(
    reader: &mut Reader<'_>,
    cx: &Cx,
    row: Row<'_>,
    a: u32,
) -> Result<Answer, Refusal> {
    match row.verb {
        "member" => reader.members.push(a)?,
        "clear" => reader.members.clear(),
        _ => {
            let text = letters(reader.alloc, cx, reader.members.as_slice(), row.first, a)?;
            return Ok(Answer::Text(text));
        }
    }
    Ok(Answer::One(Item::Count(reader.members.len())))
}
