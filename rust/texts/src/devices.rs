// Made of `crates/texts/src/devices.rt` by `bench/plain.py`: an edit of this file is lost.

//! Texts that are cut or damaged, and devices that fail.

use kit::{eprintln, format, prelude::*, print, println, vec};
use crate::cases::{BEFORE, DECLARATIONS, check, ends, ends_cut, joined};
use crate::memory::{ALL_CALLS, Calls};
use assembly_text::run::Status;
use kit::alloc::Global;

const QUERIES: &str =
    "orphan local Trait Pair Vec (0) Box LocalType\norphan local Trait Vec LocalType\n";

/// What the queries print.
const ANSWERS: &[u8] = b"ok\nnonlocal (Vec LocalType, Yes)\n";

/// The text of the stored run.
const STORED: &str = "adt 1 Vec 1
adt 1 Box 1 fundamental
adt 1 Pair 2 fundamental
adt 1 Unit0 0 fundamental
adt 0 LocalType 0
adt 0 Wrap 1
trait 1 Trait 0
trait 1 Trait1 1
trait 1 Trait2 2
trait 0 LocalTrait 0
trait 1 Tr 0
orphan local Trait Pair Vec (0) Box LocalType
orphan local Trait Vec LocalType
";

/// How many lines the declarations are.
const DECLARED: usize = 12;

/// How many queries the long text has.
const MANY: usize = 400;

/// After how many calls the output fails: within the first answer, where it is flushed, behind it, later, and within what is said of the fault.
const WRITES: &[usize] = &[0, 1, 5, 6, 7, 8, 1000, 2000, 2799, 2800, 2801, 2805];

/// After how many calls what is said of a fault can't be written, the text, and what is printed all the same.
const UNSAID: &[(usize, &str, &str)] = &[
    (0, "local 1\nfoo", "line 2: unknown word\n"),
    (1, "local 1\nfoo", "line 2: unknown word\n"),
    (
        0,
        "trait 1 T 1 auto\norphan",
        "line 2: declaration fault 2\n",
    ),
];

/// How many of the bytes are written by so many calls: each takes five bytes of a line, and one behind the line flushes it.
fn written_by(writes: usize, whole: &[u8]) -> usize {
    let mut left = writes;
    let mut written: usize = 0;
    let mut in_call: usize = 0;
    for byte in whole {
        if left == 0 {
            break;
        }
        written = written.saturating_add(1);
        in_call = in_call.saturating_add(1);
        if *byte == b'\n' {
            // The last call of the line, and the one that flushes it.
            left = left.saturating_sub(2);
            in_call = 0;
        } else if in_call == 5 {
            left = left.saturating_sub(1);
            in_call = 0;
        }
    }
    written
}

/// The writer fails at the call after so many, and what was written is a beginning of the whole.
fn check_beginning(rt: &HostRuntime, alloc: Global, text: &[u8], writes: usize, whole: &[u8]) {
    let calls = Calls {
        writes,
        ..ALL_CALLS
    };
    let count = whole.len().min(written_by(writes, whole));
    check(
        rt,
        alloc,
        text,
        calls,
        Status::DeviceFailed,
        &whole[..count],
    );
}

/// What the queries print whose lines are read, where these bytes of the text are.
fn answers_to(read: &[u8]) -> &'static [u8] {
    let mut lines: usize = 0;
    for byte in read {
        if *byte == b'\n' {
            lines = lines.saturating_add(1);
        }
    }
    match lines.saturating_sub(DECLARED) {
        0 => b"",
        1 => b"ok\n",
        _ => ANSWERS,
    }
}

#[test]
fn ends_wherever_the_text_is_cut() {
    let rt = HostRuntime;
    check(
        &rt,
        rt.alloc(),
        STORED.as_bytes(),
        ALL_CALLS,
        Status::Done,
        ANSWERS,
    );
    let text = joined(&rt, rt.alloc(), &[DECLARATIONS, QUERIES]);
    for text in [text.as_bytes(), STORED.as_bytes()] {
        ends_cut(&rt, rt.alloc(), text);
    }
}

#[test]
fn ends_wherever_the_text_is_damaged() {
    let rt = HostRuntime;
    let text = joined(
        &rt,
        rt.alloc(),
        &[
            BEFORE,
            "norm P u8 V u8\nmode analysis\norphan local T P u8\n",
        ],
    );
    let mut damaged = text.into_bytes();
    for byte in [b' ', b'\n', b'V', b'#', b'9', b'$'] {
        for place in 0..damaged.len() {
            let kept = damaged[place];
            damaged[place] = byte;
            ends(&rt, rt.alloc(), damaged.as_slice());
            damaged[place] = kept;
        }
    }
}

#[test]
fn says_that_a_device_failed() {
    let rt = HostRuntime;
    let text = joined(&rt, rt.alloc(), &[DECLARATIONS, QUERIES]);
    for reads in 0..text.len().div_ceil(50) + 1 {
        let calls = Calls { reads, ..ALL_CALLS };
        let count = text.len().min(reads.saturating_mul(50));
        check(
            &rt,
            rt.alloc(),
            text.as_bytes(),
            calls,
            Status::DeviceFailed,
            answers_to(&text.as_bytes()[..count]),
        );
    }
    for writes in 0..9 {
        check_beginning(&rt, rt.alloc(), text.as_bytes(), writes, ANSWERS);
    }
    let calls = Calls {
        writes: 9,
        ..ALL_CALLS
    };
    check(
        &rt,
        rt.alloc(),
        text.as_bytes(),
        calls,
        Status::Done,
        ANSWERS,
    );
}

#[test]
fn writes_the_answers_before_a_fault() {
    let rt = HostRuntime;
    let alloc = rt.alloc();
    let asked = "orphan local Trait Vec LocalType\n"
        .kit_repeat(alloc, MANY)
        .expect("memory");
    let text = joined(&rt, alloc, &[DECLARATIONS, asked.as_str(), "foo\n"]);
    let answered = "nonlocal (Vec LocalType, Yes)\n"
        .kit_repeat(alloc, MANY)
        .expect("memory");
    let whole = joined(&rt, alloc, &[answered.as_str(), "line 413: unknown word\n"]);
    check(
        &rt,
        alloc,
        text.as_bytes(),
        ALL_CALLS,
        Status::BadLine,
        whole.as_bytes(),
    );
    for writes in WRITES {
        check_beginning(&rt, alloc, text.as_bytes(), *writes, whole.as_bytes());
    }
}

#[test]
fn ends_as_ever_where_nothing_can_be_said() {
    let rt = HostRuntime;
    for (says, text, want) in UNSAID {
        let calls = Calls {
            says: *says,
            ..ALL_CALLS
        };
        check(
            &rt,
            rt.alloc(),
            text.as_bytes(),
            calls,
            Status::BadLine,
            want.as_bytes(),
        );
    }
}
