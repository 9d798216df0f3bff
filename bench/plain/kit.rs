//! What the sources of `assembly` and of the programs of rows use of the kit's std and crates, by Rust's own std, for
//! `bench/plain.py`. Collections take an allocator, which is no value here. A growth of a collection is counted, and the one of the number
//! in the variable `REFUSE` is refused, with `LATER` all later ones, too; `alloc::refusing` does so in tests. Which growths there are differs from
//! the kit's std. Where the system has no memory, Rust's std ends the program.

pub use std::{cell, convert, fmt, mem, process, str};

/// Random bytes from the system.
pub mod random {
    use crate::io;
    use std::io::Read;

    pub trait RandomSource {
        fn fill_bytes(&self, bytes: &mut [u8]) -> io::Result<()>;
    }

    impl RandomSource for crate::runtime::HostRuntime {
        /// There are none where the variable `NO_RANDOM_BYTES` is set.
        fn fill_bytes(&self, bytes: &mut [u8]) -> io::Result<()> {
            match std::env::var_os("NO_RANDOM_BYTES") {
                Some(_) => Err(io::Error::from(io::ErrorKind::Unsupported)),
                None => std::fs::File::open("/dev/urandom")?.read_exact(bytes),
            }
        }
    }
}

/// The arguments of the process.
pub mod env {
    use crate::collections::String;
    use crate::io;

    /// Why an argument wasn't copied.
    pub enum FillError {
        NotPresent,
        TooLong,
    }

    pub trait Env {
        fn arg(&self, place: usize, bytes: &mut [u8]) -> Result<usize, FillError>;
    }

    impl Env for crate::runtime::HostRuntime {
        fn arg(&self, place: usize, _: &mut [u8]) -> Result<usize, FillError> {
            match std::env::args_os().nth(place) {
                Some(_) => Err(FillError::TooLong),
                None => Err(FillError::NotPresent),
            }
        }
    }

    pub fn args<R: Env>(_: &R) -> io::Result<impl Iterator<Item = String>> {
        let words: Result<Vec<_>, _> = std::env::args_os().map(|word| word.into_string()).collect();
        match words {
            Ok(words) => Ok(words.into_iter().map(String::from)),
            Err(_) => Err(io::Error::from(io::ErrorKind::InvalidData)),
        }
    }
}

/// Files of the system.
pub mod fs {
    use crate::alloc::Global;
    use crate::collections::String;
    use crate::io;

    pub trait Files {
        type File: io::Read;

        fn open_file(&self, path: &str) -> io::Result<Self::File>;

        fn metadata(&self, path: &str) -> io::Result<std::fs::Metadata>;
    }

    impl Files for crate::runtime::HostRuntime {
        type File = std::fs::File;

        fn open_file(&self, path: &str) -> io::Result<std::fs::File> {
            std::fs::File::open(path)
        }

        fn metadata(&self, path: &str) -> io::Result<std::fs::Metadata> {
            std::fs::metadata(path)
        }
    }

    /// The text of a file.
    pub fn read_to_string(_: &crate::runtime::HostRuntime, path: &str) -> io::Result<String> {
        Ok(String::from_str(Global, &std::fs::read_to_string(path)?)?)
    }

    pub struct File;

    impl File {
        pub fn open<R: Files>(system: &R, path: &str) -> io::Result<R::File> {
            system.open_file(path)
        }
    }
}

/// What stands in the scope of each file.
pub mod prelude {
    pub use crate::collections::{Collect, Concat, String, Texts, ToVec, Vec};
    pub use crate::runtime::{Eprint, HostRuntime, Print};

    /// A bound of the kit, which each type of Rust keeps.
    pub trait Drop {}

    impl<T> Drop for T {}
}

pub mod alloc {
    #[cfg(feature = "growths")]
    pub use growths::{growths, refusing};
    #[cfg(feature = "growths")]
    pub(crate) use growths::grow;

    /// Growths are counted and refused, so that tests see what a refused one does.
    #[cfg(feature = "growths")]
    mod growths {
        use super::AllocError;
        use std::cell::Cell;

        /// How many growths there were on this thread, and which are refused.
        #[derive(Clone, Copy)]
        struct Growths {
            count: u64,
            first: u64,
            last: u64,
        }

        thread_local! {
            static GROWTHS: Cell<Growths> = Cell::new(from_variables());
        }

        fn from_variables() -> Growths {
            match std::env::var("REFUSE").map(|number| number.parse()) {
                Ok(Ok(first)) => with_refused(first, std::env::var_os("LATER").is_some()),
                _ => with_refused(0, false),
            }
        }

        fn with_refused(first: u64, is_later: bool) -> Growths {
            let last = if is_later { u64::MAX } else { first };
            Growths { count: 0, first, last }
        }

        /// Runs with the growth of that number refused, and all later ones, if it says so; none where it is 0. Answers how many there were, too.
        pub fn refusing<T>(number: u64, is_later: bool, run: impl FnOnce() -> T) -> (T, u64) {
            let before = GROWTHS.replace(with_refused(number, is_later));
            let found = run();
            (found, GROWTHS.replace(before).count)
        }

        /// How many growths there were on this thread.
        pub fn growths() -> u64 {
            GROWTHS.get().count
        }

        /// A growth, if it isn't refused.
        pub(crate) fn grow() -> Result<(), AllocError> {
            let mut growths = GROWTHS.get();
            growths.count += 1;
            GROWTHS.set(growths);
            if growths.first > 0 && (growths.first..=growths.last).contains(&growths.count) {
                return Err(AllocError);
            }
            Ok(())
        }
    }

    /// A growth.
    #[cfg(not(feature = "growths"))]
    pub(crate) fn grow() -> Result<(), AllocError> {
        Ok(())
    }

    /// A growth where there is something to be held.
    pub(crate) fn grow_for(count: usize) -> Result<(), AllocError> {
        if count > 0 { grow() } else { Ok(()) }
    }

    /// The allocator.
    #[derive(Clone, Copy)]
    pub struct Global;

    /// A runtime that has an allocator.
    pub trait Alloc {
        type A;

        fn alloc(&self) -> Self::A;
    }

    impl Alloc for crate::runtime::HostRuntime {
        type A = Global;

        fn alloc(&self) -> Global {
            Global
        }
    }

    /// A refused growth.
    pub struct AllocError;

    /// A refused growth, with what was to be added.
    pub struct AllocFailed<T>(pub T);

    impl<T> From<AllocFailed<T>> for AllocError {
        fn from(_: AllocFailed<T>) -> Self {
            AllocError
        }
    }
}

pub mod marker {
    /// What contracts see of a type, of which nothing is left.
    pub trait Model {}
}

pub mod collections {
    use crate::alloc::{grow, grow_for, AllocError, AllocFailed, Global};
    use std::fmt;
    use std::ops::{Deref, DerefMut};

    #[derive(Debug)]
    pub struct Vec<T>(std::vec::Vec<T>);

    impl<T> Vec<T> {
        pub fn new(_: Global) -> Self {
            Vec(std::vec::Vec::new())
        }

        /// Has room for so many more items.
        fn make_room(&mut self, count: usize) -> Result<(), AllocError> {
            if self.0.capacity() - self.0.len() < count {
                grow()?;
                self.0.reserve(count);
            }
            Ok(())
        }

        pub fn with_capacity(_: Global, count: usize) -> Result<Self, AllocError> {
            grow_for(count)?;
            Ok(Vec(std::vec::Vec::with_capacity(count)))
        }

        pub fn allocator(&self) -> &Global {
            &Global
        }

        pub fn push(&mut self, item: T) -> Result<(), AllocFailed<T>> {
            if self.make_room(1).is_err() {
                return Err(AllocFailed(item));
            }
            self.0.push(item);
            Ok(())
        }

        pub fn reserve(&mut self, count: usize) -> Result<(), AllocError> {
            self.make_room(count)
        }

        pub fn append(&mut self, other: &mut Self) -> Result<(), AllocError> {
            self.make_room(other.0.len())?;
            self.0.append(&mut other.0);
            Ok(())
        }

        pub fn sort_by_key<K: Ord>(&mut self, key: impl FnMut(&T) -> K) -> Result<(), AllocError> {
            grow_for(self.0.len() / 2)?;
            self.0.sort_by_key(key);
            Ok(())
        }

        pub fn truncate(&mut self, count: usize) {
            self.0.truncate(count);
        }

        /// Adds an item to a list that has room for it.
        pub fn push_reserved(&mut self, item: T) {
            self.0.push(item);
        }
    }

    impl<T: Clone> Vec<T> {
        pub fn filled(item: T, count: usize) -> Result<Self, AllocError> {
            grow_for(count)?;
            Ok(Vec(std::vec![item; count]))
        }

        pub fn from_slice(_: Global, items: &[T]) -> Result<Self, AllocError> {
            grow_for(items.len())?;
            Ok(Vec(items.to_vec()))
        }

        pub fn clone(&self) -> Result<Self, AllocError> {
            grow_for(self.0.len())?;
            Ok(Vec(self.0.clone()))
        }

        pub fn resize(&mut self, count: usize, item: T) -> Result<(), AllocError> {
            self.make_room(count.saturating_sub(self.0.len()))?;
            self.0.resize(count, item);
            Ok(())
        }

        pub fn extend_from_slice(&mut self, items: &[T]) -> Result<(), AllocError> {
            self.make_room(items.len())?;
            self.0.extend_from_slice(items);
            Ok(())
        }
    }

    impl<T> From<std::vec::Vec<T>> for Vec<T> {
        fn from(items: std::vec::Vec<T>) -> Self {
            Vec(items)
        }
    }

    impl<T> From<Vec<T>> for std::vec::Vec<T> {
        fn from(list: Vec<T>) -> Self {
            list.0
        }
    }

    impl<T> Deref for Vec<T> {
        type Target = std::vec::Vec<T>;

        fn deref(&self) -> &Self::Target {
            &self.0
        }
    }

    impl<T> DerefMut for Vec<T> {
        fn deref_mut(&mut self) -> &mut Self::Target {
            &mut self.0
        }
    }

    impl<T> IntoIterator for Vec<T> {
        type Item = T;
        type IntoIter = std::vec::IntoIter<T>;

        fn into_iter(self) -> Self::IntoIter {
            self.0.into_iter()
        }
    }

    impl<'a, T> IntoIterator for &'a Vec<T> {
        type Item = &'a T;
        type IntoIter = std::slice::Iter<'a, T>;

        fn into_iter(self) -> Self::IntoIter {
            self.0.iter()
        }
    }

    /// The kit's `to_vec` of a slice. Rust's own has the name.
    pub trait ToVec<T> {
        fn kit_to_vec(&self, alloc: Global) -> Result<Vec<T>, AllocError>;
    }

    impl<T: Clone> ToVec<T> for [T] {
        fn kit_to_vec(&self, _: Global) -> Result<Vec<T>, AllocError> {
            grow_for(self.len())?;
            Ok(Vec(self.to_vec()))
        }
    }

    /// The kit's `collect` of an iterator. Rust's own has the name.
    pub trait Collect: Iterator + Sized {
        fn kit_collect(self, alloc: Global) -> Result<Vec<Self::Item>, AllocError> {
            let mut items = Vec::new(alloc);
            for item in self {
                items.push(item)?;
            }
            Ok(items)
        }
    }

    impl<I: Iterator> Collect for I {}

    /// The kit's methods of a text that make another one. Rust's own have the names.
    pub trait Texts {
        fn kit_repeat(&self, alloc: Global, count: usize) -> Result<String, AllocError>;

        fn kit_replace(&self, alloc: Global, from: &str, to: &str) -> Result<String, AllocError>;
    }

    /// The kit's `concat` of texts. Rust's own has the name.
    pub trait Concat {
        fn kit_concat(&self, alloc: Global) -> Result<String, AllocError>;
    }

    impl Concat for [&str] {
        fn kit_concat(&self, alloc: Global) -> Result<String, AllocError> {
            String::from_str(alloc, &self.concat())
        }
    }

    impl Texts for str {
        fn kit_repeat(&self, _: Global, count: usize) -> Result<String, AllocError> {
            grow_for(self.len() * count)?;
            Ok(String(self.repeat(count)))
        }

        fn kit_replace(&self, _: Global, from: &str, to: &str) -> Result<String, AllocError> {
            grow_for(self.len())?;
            Ok(String(self.replace(from, to)))
        }
    }

    pub struct String(std::string::String);

    impl String {
        pub fn new(_: Global) -> Self {
            String(std::string::String::new())
        }

        /// Has room for so many more bytes.
        fn make_room(&mut self, count: usize) -> Result<(), AllocError> {
            if self.0.capacity() - self.0.len() < count {
                grow()?;
                self.0.reserve(count);
            }
            Ok(())
        }

        pub fn from_str(_: Global, text: &str) -> Result<Self, AllocError> {
            grow_for(text.len())?;
            Ok(String(text.to_owned()))
        }

        pub fn clone(&self) -> Result<Self, AllocError> {
            grow_for(self.0.len())?;
            Ok(String(self.0.clone()))
        }

        pub fn into_bytes(self) -> Vec<u8> {
            Vec(self.0.into_bytes())
        }

        pub fn reserve(&mut self, count: usize) -> Result<(), AllocError> {
            self.make_room(count)
        }

        pub fn push(&mut self, letter: char) -> Result<(), AllocError> {
            self.make_room(letter.len_utf8())?;
            self.0.push(letter);
            Ok(())
        }

        pub fn push_str(&mut self, text: &str) -> Result<(), AllocError> {
            self.make_room(text.len())?;
            self.0.push_str(text);
            Ok(())
        }

        /// What `write!` calls.
        pub fn write_fmt(&mut self, parts: fmt::Arguments<'_>) -> Result<(), AllocError> {
            fmt::Write::write_fmt(self, parts).map_err(|_| AllocError)
        }
    }

    impl fmt::Write for String {
        fn write_str(&mut self, text: &str) -> fmt::Result {
            self.push_str(text).map_err(|_| fmt::Error)
        }
    }

    impl Deref for String {
        type Target = std::string::String;

        fn deref(&self) -> &Self::Target {
            &self.0
        }
    }

    impl DerefMut for String {
        fn deref_mut(&mut self) -> &mut Self::Target {
            &mut self.0
        }
    }

    impl From<std::string::String> for String {
        fn from(text: std::string::String) -> Self {
            String(text)
        }
    }

    impl fmt::Display for String {
        fn fmt(&self, f: &mut fmt::Formatter<'_>) -> fmt::Result {
            f.write_str(&self.0)
        }
    }

    /// What an ordered map can be asked for by.
    pub trait Comparable<K> {
        fn find_in<V>(self, map: &std::collections::BTreeMap<K, V>) -> Option<&V>;
    }

    impl<K: Ord> Comparable<K> for &K {
        fn find_in<V>(self, map: &std::collections::BTreeMap<K, V>) -> Option<&V> {
            map.get(self)
        }
    }

    impl<'b> Comparable<&'b str> for &str {
        fn find_in<'m, V>(self, map: &'m std::collections::BTreeMap<&'b str, V>) -> Option<&'m V> {
            map.get::<str>(self)
        }
    }

    pub struct BTreeMap<K, V>(std::collections::BTreeMap<K, V>);

    impl<K: Ord, V> BTreeMap<K, V> {
        pub fn new(_: Global) -> Self {
            BTreeMap(std::collections::BTreeMap::new())
        }

        pub fn get<Q: Comparable<K>>(&self, key: Q) -> Option<&V> {
            key.find_in(&self.0)
        }

        pub fn get_mut(&mut self, key: &K) -> Option<&mut V> {
            self.0.get_mut(key)
        }

        pub fn insert(&mut self, key: K, value: V) -> Result<Option<V>, AllocError> {
            if !self.0.contains_key(&key) {
                grow()?;
            }
            Ok(self.0.insert(key, value))
        }

        pub fn remove(&mut self, key: &K) -> Option<V> {
            self.0.remove(key)
        }
    }
}

pub mod io {
    use crate::alloc::{grow, AllocError, Global};
    pub use std::io::{Error, ErrorKind, Read, Result, Write};

    impl From<AllocError> for Error {
        fn from(_: AllocError) -> Self {
            Error::from(ErrorKind::OutOfMemory)
        }
    }

    pub struct BufWriter;

    impl BufWriter {
        pub fn new<W: Write>(_: Global, output: W) -> Result<std::io::BufWriter<W>> {
            grow()?;
            Ok(std::io::BufWriter::new(output))
        }
    }
}

pub mod runtime {
    use crate::alloc::Global;
    use std::fs::File;
    use std::io::BufReader;
    use std::os::fd::AsFd;

    /// What `main` is given.
    pub struct HostRuntime;

    /// At its end the program says how many growths there were, where the variable `COUNT_GROWTHS` is set.
    #[cfg(feature = "growths")]
    impl Drop for HostRuntime {
        fn drop(&mut self) {
            if std::env::var_os("COUNT_GROWTHS").is_some() {
                std::eprintln!("{}", crate::alloc::growths());
            }
        }
    }

    /// A runtime that has an output.
    pub trait Print {
        fn stdout(&self) -> File;
    }

    /// A runtime that has an output for errors.
    pub trait Eprint {}

    impl Print for HostRuntime {
        fn stdout(&self) -> File {
            unbuffered(std::io::stdout())
        }
    }

    impl Eprint for HostRuntime {}

    impl<R: Print> Print for &R {
        fn stdout(&self) -> File {
            (**self).stdout()
        }
    }

    impl HostRuntime {
        pub fn alloc(&self) -> Global {
            Global
        }

        /// The input, without a buffer.
        pub fn stdin(&self) -> File {
            unbuffered(std::io::stdin())
        }

        /// The input, with a buffer.
        pub fn reader(&self) -> BufReader<File> {
            BufReader::new(self.stdin())
        }

        /// The output for what is said of faults, without a buffer.
        pub fn stderr(&self) -> File {
            unbuffered(std::io::stderr())
        }
    }

    fn unbuffered(device: impl AsFd) -> File {
        match device.as_fd().try_clone_to_owned() {
            Ok(owned) => File::from(owned),
            Err(error) => panic!("{error}"),
        }
    }
}

pub mod itoa {
    pub struct Buffer {
        bytes: [u8; 20],
    }

    impl Buffer {
        pub fn new() -> Buffer {
            Buffer { bytes: [0; 20] }
        }

        pub fn format<I: TryInto<u64>>(&mut self, number: I) -> &str {
            let mut left: u64 = number.try_into().ok().unwrap();
            let mut start = 20;
            loop {
                start -= 1;
                self.bytes[start] = b'0' + (left % 10) as u8;
                left /= 10;
                if left == 0 {
                    break;
                }
            }
            std::str::from_utf8(&self.bytes[start..]).unwrap()
        }
    }
}

/// A parser of command lines: flags, and words that aren't.
pub mod clap {
    use crate::alloc::{AllocError, AllocFailed, Global};
    use crate::collections::String;
    use std::fmt::Write;

    pub enum ArgAction {
        Append,
        SetTrue,
    }

    pub struct Arg<'a> {
        id: &'a str,
        is_flag: bool,
        help: &'a str,
    }

    impl<'a> Arg<'a> {
        pub fn new(_: Global, id: &'a str) -> Self {
            Arg { id, is_flag: false, help: "" }
        }

        pub fn long(self, _: &'a str) -> Self {
            Arg { is_flag: true, ..self }
        }

        pub fn action(self, _: ArgAction) -> Self {
            self
        }

        pub fn help(self, help: &'a str) -> Self {
            Arg { help, ..self }
        }
    }

    pub struct Error {
        text: std::string::String,
        is_refusal: bool,
    }

    impl Error {
        pub fn use_stderr(&self) -> bool {
            self.is_refusal
        }

        pub fn to_string(&self, _: Global) -> Result<String, AllocError> {
            Ok(String::from(self.text.clone()))
        }
    }

    impl From<AllocError> for Error {
        fn from(_: AllocError) -> Self {
            Error { text: "error: out of memory\n".to_owned(), is_refusal: true }
        }
    }

    impl<T> From<AllocFailed<T>> for Error {
        fn from(_: AllocFailed<T>) -> Self {
            Error::from(AllocError)
        }
    }

    pub struct ArgMatches<'a> {
        flags: Vec<&'a str>,
        words: Vec<&'a str>,
    }

    impl<'a> ArgMatches<'a> {
        pub fn get_flag(&self, id: &str) -> bool {
            self.flags.contains(&id)
        }

        pub fn get_strs(&self, _: &str) -> Option<&[&'a str]> {
            (!self.words.is_empty()).then_some(&self.words)
        }
    }

    pub struct Command<'a> {
        name: &'a str,
        display_name: std::string::String,
        version: &'a str,
        about: &'a str,
        after_help: &'a str,
        args: Vec<Arg<'a>>,
    }

    impl<'a> Command<'a> {
        pub fn new(_: Global, name: &'a str) -> Self {
            Command { name, display_name: name.to_owned(), version: "", about: "", after_help: "", args: Vec::new() }
        }

        pub fn display_name(self, name: &str) -> Result<Self, AllocError> {
            Ok(Command { display_name: name.to_owned(), ..self })
        }

        pub fn bin_name(self, _: &str) -> Result<Self, AllocError> {
            Ok(self)
        }

        pub fn version(self, version: &'a str) -> Self {
            Command { version, ..self }
        }

        pub fn about(self, about: &'a str) -> Self {
            Command { about, ..self }
        }

        pub fn after_help(self, after_help: &'a str) -> Self {
            Command { after_help, ..self }
        }

        pub fn arg(mut self, arg: Arg<'a>) -> Result<Self, AllocError> {
            self.args.push(arg);
            Ok(self)
        }

        fn usage(&self) -> std::string::String {
            let words: std::string::String = self.args.iter().filter(|arg| !arg.is_flag).map(|arg| format!(" [{}]...", arg.id)).collect();
            format!("Usage: {} [OPTIONS]{words}", self.name)
        }

        fn help(&self) -> std::string::String {
            let mut text = format!("{}\n\n{}\n\nArguments:\n", self.about, self.usage());
            for arg in self.args.iter().filter(|arg| !arg.is_flag) {
                let _ = writeln!(text, "  [{}]...  {}", arg.id, arg.help);
            }
            text += "\nOptions:\n";
            for arg in self.args.iter().filter(|arg| arg.is_flag) {
                let _ = writeln!(text, "      --{:<8} {}", arg.id, arg.help);
            }
            text += "  -h, --help     Print help\n  -V, --version  Print version\n";
            format!("{text}\n{}", self.after_help)
        }

        pub fn try_get_matches_from(self, words: &'a [String]) -> Result<ArgMatches<'a>, Error> {
            let mut matches = ArgMatches { flags: Vec::new(), words: Vec::new() };
            let mut is_behind_dashes = false;
            for word in words.iter().skip(1).map(|word| word.as_str()) {
                let flag = word.strip_prefix("--").unwrap_or("");
                if is_behind_dashes || !word.starts_with('-') || word == "-" {
                    matches.words.push(word);
                } else if word == "--" {
                    is_behind_dashes = true;
                } else if self.args.iter().any(|arg| arg.is_flag && arg.id == flag) {
                    if matches.flags.contains(&flag) {
                        let text = format!("error: the argument '{word}' cannot be used multiple times\n");
                        return Err(Error { text, is_refusal: true });
                    }
                    matches.flags.push(flag);
                } else if ["-h", "--help"].contains(&word) {
                    return Err(Error { text: self.help(), is_refusal: false });
                } else if ["-V", "--version"].contains(&word) {
                    return Err(Error { text: format!("{} {}\n", self.display_name, self.version), is_refusal: false });
                } else {
                    let text = format!("error: unexpected argument '{word}' found\n\n{}\n", self.usage());
                    return Err(Error { text, is_refusal: true });
                }
            }
            Ok(matches)
        }
    }
}

/// Objects of JSON, written a token at a time.
pub mod json {
    use crate::alloc::AllocError;
    use crate::collections::Vec;

    pub struct Writer {
        out: Vec<u8>,
        is_behind_value: bool,
    }

    impl Writer {
        pub fn new(out: Vec<u8>) -> Self {
            Writer { out, is_behind_value: false }
        }

        pub fn into_inner(self) -> Vec<u8> {
            self.out
        }

        /// Puts these bytes, behind a comma where a value stands before them.
        fn put(&mut self, bytes: &[u8], is_value: bool) -> Result<(), AllocError> {
            if self.is_behind_value {
                self.out.push(b',')?;
            }
            self.is_behind_value = is_value;
            self.out.extend_from_slice(bytes)
        }

        fn close(&mut self, byte: u8) -> Result<(), AllocError> {
            self.is_behind_value = true;
            self.out.push(byte)?;
            Ok(())
        }

        pub fn begin_object(&mut self) -> Result<(), AllocError> {
            self.put(b"{", false)
        }

        pub fn end_object(&mut self) -> Result<(), AllocError> {
            self.close(b'}')
        }

        pub fn begin_array(&mut self) -> Result<(), AllocError> {
            self.put(b"[", false)
        }

        pub fn end_array(&mut self) -> Result<(), AllocError> {
            self.close(b']')
        }

        pub fn key(&mut self, name: &str) -> Result<(), AllocError> {
            self.string(name)?;
            self.is_behind_value = false;
            self.out.push(b':')?;
            Ok(())
        }

        /// Puts a text of visible ASCII characters, spaces and ends of lines.
        pub fn string(&mut self, text: &str) -> Result<(), AllocError> {
            let escaped = text.replace('\\', "\\\\").replace('"', "\\\"").replace('\n', "\\n");
            self.put(std::format!("\"{escaped}\"").as_bytes(), true)
        }

        pub fn u64(&mut self, number: u64) -> Result<(), AllocError> {
            self.put(number.to_string().as_bytes(), true)
        }

        pub fn boolean(&mut self, is: bool) -> Result<(), AllocError> {
            self.put(is.to_string().as_bytes(), true)
        }

        pub fn null(&mut self) -> Result<(), AllocError> {
            self.put(b"null", true)
        }
    }
}

pub mod memchr {
    pub fn memchr(byte: u8, text: &[u8]) -> Option<usize> {
        text.iter().position(|each| *each == byte)
    }
}

pub mod strsim {
    use crate::alloc::{AllocError, Global};

    /// The least number of bytes put in, left out and changed from one text to the other.
    pub fn levenshtein(_: Global, from: &str, to: &str) -> Result<usize, AllocError> {
        let to = to.as_bytes();
        let mut row: std::vec::Vec<usize> = (0..=to.len()).collect();
        for (before, byte) in from.bytes().enumerate() {
            let mut corner = row[0];
            row[0] = before + 1;
            for place in 0..to.len() {
                let changed = corner + usize::from(byte != to[place]);
                corner = row[place + 1];
                row[place + 1] = changed.min(row[place] + 1).min(corner + 1);
            }
        }
        Ok(row[to.len()])
    }
}

pub mod hash {
    pub use std::hash::{BuildHasher, BuildHasherDefault, Hash, Hasher};

    /// What a number is multiplied with.
    const MULTIPLIER: u64 = 0x9e37_79b9_7f4a_7c15;

    /// The kit's quick hasher, whose seed is fixed.
    #[derive(Clone, Copy)]
    pub struct FoldHasher {
        state: u64,
    }

    impl Default for FoldHasher {
        fn default() -> Self {
            FoldHasher { state: 0x243f_6a88_85a3_08d3 }
        }
    }

    /// The halves of the product, joined.
    #[inline(always)]
    fn folded_product(a: u64, b: u64) -> u64 {
        let product = a as u128 * b as u128;
        product as u64 ^ (product >> 64) as u64
    }

    /// Four bytes as a number.
    #[inline(always)]
    fn read_four(bytes: &[u8], at: usize) -> u64 {
        u32::from_le_bytes([bytes[at], bytes[at + 1], bytes[at + 2], bytes[at + 3]]) as u64
    }

    /// Up to eight bytes as one number, by reads that may overlap.
    #[inline(always)]
    fn read_short(bytes: &[u8]) -> u64 {
        let len = bytes.len();
        if len >= 4 {
            read_four(bytes, 0) | read_four(bytes, len - 4) << 32
        } else if len > 0 {
            bytes[0] as u64 | (bytes[len / 2] as u64) << 8 | (bytes[len - 1] as u64) << 16
        } else {
            0
        }
    }

    impl Hasher for FoldHasher {
        fn finish(&self) -> u64 {
            self.state
        }

        #[inline(always)]
        fn write(&mut self, bytes: &[u8]) {
            for short in bytes.chunks(8) {
                self.state = folded_product(
                    self.state ^ read_short(short),
                    MULTIPLIER ^ (2 * short.len() as u64),
                );
            }
        }
    }
}

pub mod indexmap {
    use crate::alloc::{grow, AllocError, AllocFailed, Global};
    use crate::hash::{BuildHasher, BuildHasherDefault, FoldHasher, Hash, Hasher};
    use std::mem;

    /// A place that has no entry.
    const EMPTY: u32 = u32::MAX;

    /// A map whose entries stand in the order in which they were put in. An entry's number stands in the first place that
    /// was empty, from that of its hash on. The last entry goes first, so that none is looked for across its place.
    pub struct IndexMap<K, V, S = BuildHasherDefault<FoldHasher>> {
        keys: Vec<K>,
        values: Vec<V>,
        hashes: Vec<u32>,
        places: Vec<u32>,
        hash_builder: S,
    }

    impl<K, V> std::ops::Index<usize> for IndexMap<K, V> {
        type Output = V;

        fn index(&self, index: usize) -> &V {
            &self.values[index]
        }
    }

    impl<K, V> std::ops::IndexMut<usize> for IndexMap<K, V> {
        fn index_mut(&mut self, index: usize) -> &mut V {
            &mut self.values[index]
        }
    }

    impl<K: Hash + Eq, V> IndexMap<K, V> {
        pub fn new(alloc: Global) -> Self {
            IndexMap::with_hasher(alloc, BuildHasherDefault::default())
        }
    }

    impl<K: Hash + Eq, V, S: BuildHasher> IndexMap<K, V, S> {
        pub fn with_hasher(_: Global, hash_builder: S) -> Self {
            IndexMap {
                keys: Vec::new(),
                values: Vec::new(),
                hashes: Vec::new(),
                places: Vec::new(),
                hash_builder,
            }
        }

        /// The hash of a key.
        #[inline(always)]
        fn hash_of(&self, key: &K) -> u32 {
            let mut hasher = self.hash_builder.build_hasher();
            key.hash(&mut hasher);
            let hash = hasher.finish();
            (hash ^ (hash >> 32)) as u32
        }

        pub fn allocator(&self) -> &Global {
            &Global
        }

        pub fn len(&self) -> usize {
            self.keys.len()
        }

        pub fn get_index(&self, index: usize) -> Option<(&K, &V)> {
            Some((self.keys.get(index)?, self.values.get(index)?))
        }

        #[inline(always)]
        pub fn get(&self, key: &K) -> Option<&V> {
            self.values.get(self.get_index_of(key)?)
        }

        #[inline(always)]
        pub fn get_index_of(&self, key: &K) -> Option<usize> {
            self.find(self.hash_of(key), key)
        }

        pub fn entry(&mut self, key: K) -> Result<Entry<'_, K, V, S>, AllocFailed<K>> {
            if !self.contains_key(&key) && self.make_room().is_err() {
                return Err(AllocFailed(key));
            }
            Ok(Entry { map: self, key })
        }

        /// Its number, and the value that it had.
        #[inline(always)]
        pub fn insert_full(&mut self, key: K, value: V) -> Result<(usize, Option<V>), AllocFailed<(K, V)>> {
            let hash = self.hash_of(&key);
            if let Some(index) = self.find(hash, &key) {
                return Ok((index, Some(mem::replace(&mut self.values[index], value))));
            }
            if self.make_room().is_err() {
                return Err(AllocFailed((key, value)));
            }
            let place = self.place_of(hash, EMPTY);
            let index = self.len();
            self.places[place] = index as u32;
            self.keys.push(key);
            self.values.push(value);
            self.hashes.push(hash);
            Ok((index, None))
        }

        pub fn contains_key(&self, key: &K) -> bool {
            self.get_index_of(key).is_some()
        }

        #[inline(always)]
        pub fn insert(&mut self, key: K, value: V) -> Result<Option<V>, AllocFailed<(K, V)>> {
            Ok(self.insert_full(key, value)?.1)
        }

        /// Keeps the first so many entries.
        pub fn truncate(&mut self, len: usize) {
            for index in (len..self.len()).rev() {
                let place = self.place_of(self.hashes[index], index as u32);
                self.places[place] = EMPTY;
            }
            self.keys.truncate(len);
            self.values.truncate(len);
            self.hashes.truncate(len);
        }

        /// The places from that of a hash on, and then those before it.
        #[inline(always)]
        fn probed(&self, hash: u32) -> impl Iterator<Item = usize> {
            let count = self.places.len();
            (0..count).map(move |step| (hash as usize + step) & (count - 1))
        }

        #[inline(always)]
        fn find(&self, hash: u32, key: &K) -> Option<usize> {
            for place in self.probed(hash) {
                let number = self.places[place];
                if number == EMPTY {
                    return None;
                }
                let index = number as usize;
                if self.hashes[index] == hash && self.keys[index] == *key {
                    return Some(index);
                }
            }
            None
        }

        /// The first place from that of a hash on that has this.
        fn place_of(&self, hash: u32, number: u32) -> usize {
            match self.probed(hash).find(|place| self.places[*place] == number) {
                Some(place) => place,
                None => unreachable!(),
            }
        }

        /// Has room for an entry more: in the lists, and among the places.
        #[inline(always)]
        fn make_room(&mut self) -> Result<(), AllocError> {
            if self.keys.len() == self.keys.capacity() {
                grow()?;
                self.keys.reserve(1);
            }
            if self.values.len() == self.values.capacity() {
                grow()?;
                self.values.reserve(1);
            }
            if self.places.len() * 3 <= self.len() * 4 {
                grow()?;
                self.grow();
            }
            Ok(())
        }

        /// Makes twice as many places, and gives each entry a new one.
        #[inline(never)]
        fn grow(&mut self) {
            self.places = std::vec![EMPTY; (self.places.len() * 2).max(16)];
            for index in 0..self.len() {
                let place = self.place_of(self.hashes[index], EMPTY);
                self.places[place] = index as u32;
            }
        }
    }

    /// The place of a key, whether or not it is there.
    pub struct Entry<'a, K, V, S> {
        map: &'a mut IndexMap<K, V, S>,
        key: K,
    }

    impl<'a, K: Hash + Eq, V, S: BuildHasher> Entry<'a, K, V, S> {
        pub fn or_insert(self, value: V) -> &'a mut V {
            let index = match self.map.get_index_of(&self.key) {
                Some(index) => index,
                None => match self.map.insert_full(self.key, value) {
                    Ok((index, _)) => index,
                    Err(_) => unreachable!(),
                },
            };
            &mut self.map.values[index]
        }
    }

    /// A set whose items stand in the order in which they were put in.
    pub struct IndexSet<T>(IndexMap<T, ()>);

    impl<T: Hash + Eq> IndexSet<T> {
        pub fn new(alloc: Global) -> Self {
            IndexSet(IndexMap::new(alloc))
        }

        pub fn len(&self) -> usize {
            self.0.len()
        }

        pub fn is_empty(&self) -> bool {
            self.len() == 0
        }

        pub fn as_slice(&self) -> &[T] {
            &self.0.keys
        }

        pub fn contains(&self, item: &T) -> bool {
            self.0.contains_key(item)
        }

        /// Whether it is new.
        pub fn insert(&mut self, item: T) -> Result<bool, AllocFailed<T>> {
            match self.0.insert(item, ()) {
                Ok(old) => Ok(old.is_none()),
                Err(AllocFailed((item, ()))) => Err(AllocFailed(item)),
            }
        }
    }
}

pub mod bitflags {
    pub use crate::bitflag_items;

    /// A flag with its name.
    pub struct Flag<B> {
        pub name: &'static str,
        pub value: B,
    }

    /// A set of flags.
    pub trait Flags: Sized {
        type Bits;

        fn flags<'a>() -> &'a [Flag<Self>];

        fn bits(&self) -> Self::Bits;

        fn from_bits_retain(bits: Self::Bits) -> Self;
    }
}

/// The flags of a set as constants, and their table.
#[macro_export]
macro_rules! bitflag_items {
    (impl $set:ident: $bits:ty { $(const $name:ident = $value:expr;)* }) => {
        impl $set {
            $(pub const $name: $set = $set($value);)*

            const FLAGS: &'static [$crate::bitflags::Flag<$set>] =
                &[$($crate::bitflags::Flag { name: stringify!($name), value: $set($value) }),*];
        }
    };
}

/// A list of so many equal items.
#[macro_export]
macro_rules! vec {
    (in $alloc:expr; $item:expr; $count:expr) => {
        $crate::collections::Vec::filled($item, $count)
    };
}

/// Writes on the output of a runtime.
#[macro_export]
macro_rules! print {
    ($runtime:expr; $($part:tt)*) => {
        std::io::Write::write_fmt(&mut $runtime.stdout(), std::format_args!($($part)*))
    };
}

/// Writes a line on the output of a runtime.
#[macro_export]
macro_rules! println {
    ($runtime:expr; $($part:tt)*) => {
        std::io::Write::write_fmt(&mut $runtime.stdout(), std::format_args!("{}\n", std::format_args!($($part)*)))
    };
}

/// A text of these parts.
#[macro_export]
macro_rules! format {
    (in $alloc:expr; $($part:tt)*) => {{
        let mut text = $crate::collections::String::new($alloc);
        text.write_fmt(std::format_args!($($part)*)).map(|()| text)
    }};
    ($($part:tt)*) => { std::format!($($part)*) };
}

/// Writes a line on the error output of a runtime.
#[macro_export]
macro_rules! eprintln {
    ($runtime:expr; $($part:tt)*) => {{
        let _ = &$runtime;
        std::eprintln!($($part)*)
    }};
}
