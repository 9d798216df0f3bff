// Made of `crates/texts/src/bytes.rt` by `bench/plain.py`: an edit of this file is lost.

//! Whole texts of any bytes: lines that are passed over, bad bytes, and how long names may be.

use kit::{eprintln, format, prelude::*, print, println, vec};
use crate::cases::{check, ends_cut};
use crate::memory::ALL_CALLS;
use assembly_text::run::Status;

/// A declaration of a type with the longest name that may be, and one with a longer name.
const LONGEST_NAME: &[u8] =
    b"adt 1 nnnnnnnnnnnnnnnnnnnnnnnnnnnnnnnnnnnnnnnnnnnnnnnnnnnnnnnnnnnnnnnn 0";

const LONGER_NAME: &[u8] =
    b"adt 1 nnnnnnnnnnnnnnnnnnnnnnnnnnnnnnnnnnnnnnnnnnnnnnnnnnnnnnnnnnnnnnnnn 0";

/// Whole texts of any bytes, how the run ends, and what it prints.
const TEXTS: &[(&[u8], Status, &str)] = &[
    (b"", Status::Done, ""),
    (b"\n  \n// anything\n//\n", Status::Done, ""),
    (
        b"local 3\nlocal 002\n  trait  1 T 0 \nadt 2 L 0 enum enum\n\norphan local T L",
        Status::Done,
        "ok\n",
    ),
    (b"foo\x01 x", Status::BadLine, "line 1: bad byte\n"),
    (b"local\t1\n\t//\n #\n", Status::Done, ""),
    (
        b"\n//\xff\n \nadt 1 V 0\x7f",
        Status::BadLine,
        "line 4: bad byte\n",
    ),
    (
        b"local 1\n\xe2\x82\xac",
        Status::BadLine,
        "line 2: bad byte\n",
    ),
    (b"\xff", Status::BadLine, "line 1: bad byte\n"),
    (b"local 1\r\n\r\n//\xff\r\n", Status::Done, ""),
    (b"local 1\r\r\n", Status::BadLine, "line 1: bad byte\n"),
    (b"local\r1", Status::BadLine, "line 1: bad byte\n"),
    (b"\xef\xbb\xbflocal 1", Status::Done, ""),
    (b"\xef\xbb\xbf//\xff\n#", Status::Done, ""),
    (
        b"\xef\xbb\xbf\n\xef\xbb\xbflocal 1",
        Status::BadLine,
        "line 2: bad byte\n",
    ),
    (
        b"# a comment\n\t# one #0\n // one\n/ x",
        Status::BadLine,
        "line 4: unknown word\n",
    ),
    (
        b"trait 1 T 0 //the end\r\nadt\t 1\tV 0//\n",
        Status::BadLine,
        "line 2: bad number 0//\n",
    ),
    (
        b"trait 1 T 0\nadt 1 V 1 # no comment\n",
        Status::BadLine,
        "line 2: bad flag #\n",
    ),
    (b"local 1 // \xff\n \t//\xe2\x82\xac", Status::Done, ""),
    (b"# \xff\n\t#\xff\n", Status::Done, ""),
    (b"local \xff // #\n", Status::BadLine, "line 1: bad byte\n"),
    (b"local 1# \xff\n", Status::BadLine, "line 1: bad byte\n"),
    (
        b"trait 1 T 0//\norphan local T u8 // asks\n",
        Status::BadLine,
        "line 1: bad number 0//\n",
    ),
    (
        b"trait 1 T 0 //\norphan local T error // asks\r\n\tknowable\tT\tu8\t//",
        Status::Done,
        "ok\nupstream\n",
    ),
    (LONGEST_NAME, Status::Done, ""),
    (
        LONGER_NAME,
        Status::BadLine,
        "line 1: bad name nnnnnnnnnnnnnnnnnnnnnnnnnnnnnnnnnnnnnnnnnnnnnnnnnnnnnnnnnnnnnnnnn\n",
    ),
];

#[test]
fn prints_what_each_text_gives() {
    let rt = HostRuntime;
    for (text, status, want) in TEXTS {
        check(&rt, rt.alloc(), text, ALL_CALLS, *status, want.as_bytes());
        ends_cut(&rt, rt.alloc(), text);
    }
}
