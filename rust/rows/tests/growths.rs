//! Each text of `crates/texts/data` that is run without an argument, with each of its growths refused in turn: a query is answered `stop 1`, or a line
//! ends the run with it, and all else is as it stands there. Of texts with many growths some are refused, spread over the run.

#[path = "../../texts/src/files.rs"]
mod files;
#[path = "../../texts/src/memory.rs"]
mod memory;

use assembly_text::options::Options;
use assembly_text::run::Status;
use files::{Sections, Text};
use kit::alloc::{refusing, Global};
use memory::{run_as, Ran, ALL_CALLS};
use std::collections::BTreeMap;
use std::fs;
use std::path::PathBuf;
use std::sync::atomic::{AtomicUsize, Ordering};
use std::sync::Mutex;

/// Of a text with more growths than the first number so many are refused as the second one says.
const FEW: u64 = 2000;
const OF_MANY: u64 = 100;

const STOP: &str = "stop 1\n";

/// The stack of a thread, in bytes: that of a process, and not the smaller one that threads have.
const STACK: usize = 8 << 20;

const QUERIES: [&str; 9] = ["orphan", "knowable", "solve", "answer", "normalize", "overlap", "check", "candidates", "why"];

fn data() -> PathBuf {
    PathBuf::from(env!("CARGO_MANIFEST_DIR")).join("../texts/data")
}

fn text_of(path: &str) -> kit::collections::String {
    let text = fs::read_to_string(data().join(path)).unwrap();
    kit::collections::String::from_str(Global, &text).ok().unwrap()
}

/// The texts of all files that are run without an argument: with one a stop has other words.
fn texts() -> Vec<Text> {
    let mut found = Vec::new();
    let mut names: Vec<_> = fs::read_dir(data()).unwrap().map(|entry| entry.unwrap().file_name().into_string().unwrap()).collect();
    names.sort();
    for name in names.iter().filter(|name| name.ends_with(".txt")) {
        let mut sections = Sections::new(Global);
        for line in text_of(name).lines() {
            if let Some(of) = sections.begins_behind(line) {
                sections.set_before(text_of(&format!("before/{of}.txt")));
            }
            found.extend(sections.read(line).ok().unwrap());
        }
        found.extend(sections.finish().ok().unwrap());
    }
    found.retain(|text| text.options == Options::default());
    found
}

/// The answers, where the lines that `check` or `why` answers are one, which `stop 1` may stand in the place of.
fn answers(written: &str) -> Vec<&str> {
    let mut found: Vec<&str> = Vec::new();
    let (mut start, mut is_of_check) = (0, false);
    let mut at = 0;
    for line in written.split_inclusive('\n') {
        let goes_on = at > 0 && if is_of_check { line.starts_with("impl ") } else { line.starts_with("  ") };
        if at > 0 && !goes_on {
            found.push(&written[start..at]);
            start = at;
        }
        if !goes_on {
            is_of_check = line.starts_with("impl ");
        }
        at += line.len();
    }
    if start < at {
        found.push(&written[start..at]);
    }
    found
}

/// How a run ended of which a growth was refused, or nothing where it may not end so.
fn kind(text: &str, plain: &[&str], status: Status, printed: &[&str]) -> Option<&'static str> {
    let ended = printed.last().and_then(|line| line.strip_prefix("line ")?.strip_suffix(": stop 1\n")?.parse::<usize>().ok());
    let printed = &printed[..printed.len() - usize::from(ended.is_some())];
    let stops = printed.iter().filter(|line| **line == STOP).count();
    let is_kept = printed.iter().zip(plain).all(|(line, answer)| line == answer || *line == STOP);
    if !is_kept || stops + usize::from(ended.is_some()) > 1 {
        return None;
    }
    match ended {
        Some(number) => {
            let before = text.split('\n').take(number - 1).filter(|line| {
                let line = line.trim_start_matches([' ', '\t']);
                QUERIES.iter().any(|query| line.starts_with(query))
            });
            (status == Status::BadLine && printed.len() == before.count()).then_some("ended at a line")
        }
        None => (status == Status::Done && printed.len() == plain.len() && stops > 0).then_some("stopped at a query"),
    }
}

/// The same of a text that ends at a bad line where nothing is refused, too.
fn kind_in(text: &str, plain: &Ran, ran: &Ran) -> Option<&'static str> {
    let (plain_text, printed_text) = (std::str::from_utf8(&plain.written).ok()?, std::str::from_utf8(&ran.written).ok()?);
    if (ran.status, printed_text) == (plain.status, plain_text) {
        return Some("the same");
    }
    let said = std::str::from_utf8(&ran.said).ok()?;
    if said.lines().any(|line| !line.starts_with("line ") && !line.starts_with("and ")) {
        return None;
    }
    let (mut before, printed) = (answers(plain_text), answers(printed_text));
    if plain.status == Status::BadLine && ran.status == Status::BadLine {
        if printed.len() == before.len() && printed.last() == before.last() {
            return kind(text, &before[..before.len() - 1], Status::Done, &printed[..printed.len() - 1]);
        }
        before.pop();
    }
    kind(text, &before, ran.status, &printed)
}

/// Refuses growths of the text in turn; counts how the runs ended.
fn refuse_in(text: &Text, kinds: &mut BTreeMap<&'static str, u64>) -> Result<(), std::string::String> {
    let run = || run_as(Global, text.options, text.text.as_bytes(), ALL_CALLS);
    let (plain, count) = refusing(0, false, run);
    let step = if count > FEW { count.div_ceil(OF_MANY) } else { 1 };
    for number in (1..=count).step_by(step as usize) {
        // What is written in memory grows, too, as it isn't the program's.
        let (ran, _) = refusing(number, false, run);
        if ran.status == Status::DeviceFailed {
            *kinds.entry("the device had no room").or_default() += 1;
            continue;
        }
        match kind_in(&text.text, &plain, &ran) {
            Some(kind) => *kinds.entry(kind).or_default() += 1,
            None => {
                let written = std::string::String::from_utf8_lossy(&ran.written);
                return Err(format!("{}: growth {number} of {count}: {:?}, {written}", &*text.title, ran.status));
            }
        }
    }
    Ok(())
}

#[test]
#[ignore = "it takes minutes; the gate runs it"]
fn each_growth_of_the_texts_is_refused() {
    let texts = texts();
    assert!(texts.len() > 1000, "{} texts", texts.len());
    let (next, kinds, faults) = (AtomicUsize::new(0), Mutex::new(BTreeMap::new()), Mutex::new(Vec::new()));
    let texts = Mutex::new(texts.into_iter().map(Some).collect::<Vec<_>>());
    let count = texts.lock().unwrap().len();
    std::thread::scope(|scope| {
        for _ in 0..std::thread::available_parallelism().map_or(1, |count| count.get()) {
            let worker = || {
                let mut found = BTreeMap::new();
                loop {
                    let at = next.fetch_add(1, Ordering::Relaxed);
                    if at >= count {
                        break;
                    }
                    let text = texts.lock().unwrap()[at].take().unwrap();
                    if let Err(fault) = refuse_in(&text, &mut found) {
                        faults.lock().unwrap().push(fault);
                    }
                }
                let mut kinds = kinds.lock().unwrap();
                for (kind, many) in found {
                    *kinds.entry(kind).or_insert(0) += many;
                }
            };
            std::thread::Builder::new().stack_size(STACK).spawn_scoped(scope, worker).unwrap();
        }
    });
    println!("{count} texts: {:?}", kinds.into_inner().unwrap());
    let faults = faults.into_inner().unwrap();
    assert!(faults.is_empty(), "{} texts: {}", faults.len(), faults[0]);
}
