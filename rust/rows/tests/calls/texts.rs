//! What stops and faults print.

use crate::asserts::Failures;
use candidate_eval::coherence::OrphanStop;
use candidate_ir::decl::builder::DeclFault;
use candidate_ir::decl::fault_places::DeclError;
use candidate_ir::ir::stop::Stop;
use kit::alloc::Global;
use kit::fmt::Display;
use kit::format;
use kit::prelude::*;

/// Compares what the value prints with what is wanted.
fn compare<T: Display>(
    rt: &HostRuntime,
    alloc: Global,
    failures: &mut Failures,
    value: &T,
    want: &str,
) {
    let text = format!(in alloc; "{value}").expect("memory");
    failures.compare(rt, &text.as_str(), &want, want);
}

fn compare_stops(rt: &HostRuntime, alloc: Global, failures: &mut Failures) {
    for (stop, want) in [
        (Stop::Memory, "a growth was refused"),
        (Stop::WalkDepth, "the orphan walk is nested too deep"),
        (Stop::AliasDepth, "an alias chain is too long"),
        (Stop::ConstDepth, "constants are nested too deep"),
        (
            Stop::Unnameable,
            "a type that no header names came to the orphan walk",
        ),
        (Stop::NodesFull, "no number is left, or a tree is too high"),
        (Stop::EvaluatorLimit, "the evaluator's own limit is reached"),
    ] {
        compare(rt, alloc, failures, &stop, want);
    }
}

fn compare_faults(rt: &HostRuntime, alloc: Global, failures: &mut Failures) {
    for (fault, want) in [
        (
            DeclFault::UnknownId,
            "a number is named that was never given",
        ),
        (
            DeclFault::WrongArity,
            "arguments or parameters don't fit a definition",
        ),
        (
            DeclFault::WrongKind,
            "something of another kind is asked for",
        ),
        (DeclFault::SupertraitCycle, "a trait is its own supertrait"),
        (
            DeclFault::NoTail,
            "a type with unsizing parameters has no last field",
        ),
        (
            DeclFault::LangArity,
            "a lang item's trait has the wrong parameters",
        ),
        (DeclFault::Memory, "a growth was refused"),
        (DeclFault::BadLimit, "a limit is 0"),
    ] {
        compare(rt, alloc, failures, &fault, want);
    }
}

#[test]
fn stops_and_faults_have_a_text() {
    let rt = HostRuntime;
    let mut failures = Failures::new();
    compare_stops(&rt, rt.alloc(), &mut failures);
    compare_faults(&rt, rt.alloc(), &mut failures);
    let error = DeclError {
        fault: DeclFault::BadLimit,
        place: None,
    };
    compare(&rt, rt.alloc(), &mut failures, &error, "a limit is 0");
    let failed: OrphanStop<Stop> = OrphanStop::Normalize(Stop::EvaluatorLimit);
    let want = "the evaluator's own limit is reached";
    compare(&rt, rt.alloc(), &mut failures, &failed, want);
    let stopped: OrphanStop<Stop> = OrphanStop::Stop(Stop::WalkDepth);
    let want = "the orphan walk is nested too deep";
    compare(&rt, rt.alloc(), &mut failures, &stopped, want);
    failures.end(&rt);
}
