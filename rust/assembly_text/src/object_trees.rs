// Made of `crates/assembly_text/src/object_trees.rt` by `bench/plain.py`: an edit of this file is lost.

//! Types as trees of JSON: an object for each, made of the words that spell it.
//!
//! A type is `{"head":"Vec","args":[{"head":"u8"}]}`. Its head is the word that it begins with; before that may stand words that qualify it.

use kit::{eprintln, format, prelude::*, print, println, vec};
use assembly_notation::names::{Item, Names};
use kit::json::Writer;
use kit::alloc::{AllocError, Global};

/// What is left of a line.
#[derive(Clone, Copy, Debug)]
pub struct Rest<'t> {
    text: &'t str,
}

impl<'t> Rest<'t> {
    pub fn of(text: &'t str) -> Self {
        Rest { text }
    }

    /// All that is left.
    pub fn text(self) -> &'t str {
        self.text
    }

    /// The next word, if one is left, without a comma or a colon at its end.
    pub fn next_word(&mut self) -> Option<&'t str> {
        let text = self.text.trim_start();
        let (word, rest) = match text.split_once(' ') {
            Some((word, rest)) => (word, rest),
            None => (text, ""),
        };
        if word.is_empty() {
            return None;
        }
        self.text = rest;
        Some(word.trim_end_matches([',', ':']))
    }

    /// Whether the next word is this one, which is read then.
    pub fn next_is(&mut self, wanted: &str) -> bool {
        let mut ahead = *self;
        match ahead.next_word() {
            Some(word) if word == wanted => {
                *self = ahead;
                true
            }
            _ => false,
        }
    }

    /// The next word, if it begins so; else none is read.
    pub fn next_if(&mut self, first: char) -> Option<&'t str> {
        let mut ahead = *self;
        let word = ahead.next_word()?;
        if !word.starts_with(first) {
            return None;
        }
        *self = ahead;
        Some(word)
    }

    /// The next word as a number, if it is one; else none is read.
    pub fn next_number(&mut self) -> Option<u64> {
        let mut ahead = *self;
        let number = ahead.next_word()?.parse::<u64>().ok()?;
        *self = ahead;
        Some(number)
    }
}

/// A node whose parts are still to come.
#[derive(Clone, Copy, Debug)]
struct OpenNode {
    /// How many there are.
    left: u64,
    are_bounds: bool,
}

/// An object that is being written.
#[derive(Debug)]
pub struct Object<'n, 'a> {
    names: &'n Names<'a>,
    pub writer: Writer,
    open: Vec<OpenNode>,
}

impl<'n, 'a> Object<'n, 'a> {
    /// Begins an object in whose types these names stand.
    pub fn begin(alloc: Global, names: &'n Names<'a>) -> Result<Self, AllocError> {
        let mut writer = Writer::new(Vec::new(alloc));
        writer.begin_object()?;
        Ok(Object {
            names,
            writer,
            open: Vec::new(alloc),
        })
    }

    /// Ends the object, and the line.
    pub fn end(self) -> Result<Vec<u8>, AllocError> {
        let Object { mut writer, .. } = self;
        writer.end_object()?;
        let mut bytes = writer.into_inner();
        bytes.push(b'\n')?;
        Ok(bytes)
    }

    pub fn add_text(&mut self, key: &str, text: &str) -> Result<(), AllocError> {
        self.writer.key(key)?;
        self.writer.string(text)
    }

    pub fn add_number(&mut self, key: &str, number: u64) -> Result<(), AllocError> {
        self.writer.key(key)?;
        self.writer.u64(number)
    }

    /// Adds the next word as a text, if there is one.
    pub fn add_word(&mut self, key: &str, words: &mut Rest<'_>) -> Result<(), AllocError> {
        match words.next_word() {
            Some(word) => self.add_text(key, word),
            None => Ok(()),
        }
    }

    /// Adds the type or the reference that the next words spell.
    pub fn add_tree(&mut self, key: &str, words: &mut Rest<'_>) -> Result<(), AllocError> {
        let Some(first) = words.next_word() else {
            return Ok(());
        };
        self.writer.key(key)?;
        self.put_tree(first, words)
    }

    /// Puts the type that begins with that word, and to which the next words belong.
    pub fn put_tree<'t>(&mut self, first: &'t str, words: &mut Rest<'t>) -> Result<(), AllocError> {
        self.open.clear();
        let mut next = Some(first);
        for _ in 0..u64::MAX {
            let Some(word) = next else {
                break;
            };
            self.put_node(word, words)?;
            self.end_whole()?;
            if self.open.is_empty() {
                return Ok(());
            }
            next = words.next_word();
        }
        self.end_all()
    }

    /// Begins a node with the word at its head. A node without parts ends at once.
    fn put_node<'t>(&mut self, first: &'t str, words: &mut Rest<'t>) -> Result<(), AllocError> {
        let are_bounds = match self.open.last() {
            Some(node) => node.are_bounds,
            None => false,
        };
        self.writer.begin_object()?;
        let head = self.put_qualifiers(first, words)?;
        self.add_text("head", head)?;
        if head.starts_with('&') {
            if let Some(region) = words.next_if('\'') {
                self.add_text("region", region)?;
            }
        }
        let left = self.count_of_parts(head, are_bounds);
        let is_cut = words.next_is("..");
        if is_cut {
            self.writer.key("cut")?;
            self.writer.boolean(true)?;
        }
        if left == 0 || is_cut {
            return self.end_node();
        }
        self.writer.key("args")?;
        self.writer.begin_array()?;
        self.open.push(OpenNode {
            left,
            are_bounds: head.starts_with("dyn("),
        })?;
        Ok(())
    }

    /// Puts the words that qualify a head, from this one on, and answers the head.
    fn put_qualifiers<'t>(
        &mut self,
        first: &'t str,
        words: &mut Rest<'t>,
    ) -> Result<&'t str, AllocError> {
        if !is_qualifier(first) {
            return Ok(first);
        }
        self.writer.key("qualifiers")?;
        self.writer.begin_array()?;
        let mut word = first;
        for _ in 0..u64::MAX {
            if !is_qualifier(word) {
                break;
            }
            self.writer.string(word)?;
            let Some(next) = words.next_word() else {
                break;
            };
            word = next;
        }
        self.writer.end_array()?;
        Ok(word)
    }

    /// How many parts follow the head of a type or a reference, or of a bound of a `dyn` type.
    fn count_of_parts(&self, head: &str, is_bound: bool) -> u64 {
        match head {
            "&" | "&mut" | "*const" | "*mut" | "[]" => return 1,
            _ => {}
        }
        if let Some(count) = count_within(head, "dyn(") {
            return count;
        }
        if let Some(count) = count_within(head, "fn(") {
            return count.saturating_add(1);
        }
        if let Some(count) = count_within(head, "(") {
            return count;
        }
        if head.starts_with('[') {
            return 1;
        }
        match self.names.item(head) {
            Ok(Item::Adt(_, parameters)) => u64::from(parameters.count),
            Ok(Item::Opaque(_, parameters)) => u64::from(parameters.count),
            Ok(Item::Assoc(_, parameters)) => u64::from(parameters.count).saturating_add(1),
            Ok(Item::Trait(of)) if is_bound => u64::from(of.parameters.count),
            Ok(Item::Trait(of)) => u64::from(of.parameters.count).saturating_add(1),
            _ => 0,
        }
    }

    fn end_node(&mut self) -> Result<(), AllocError> {
        match self.open.last_mut() {
            Some(node) => node.left = node.left.saturating_sub(1),
            None => {}
        }
        self.writer.end_object()
    }

    /// Ends each node whose parts are all there, from the last one on.
    fn end_whole(&mut self) -> Result<(), AllocError> {
        for _ in 0..u64::MAX {
            match self.open.last() {
                Some(node) if node.left == 0 => {}
                _ => break,
            }
            self.end_last()?;
        }
        Ok(())
    }

    /// Ends all nodes, where words are lacking.
    fn end_all(&mut self) -> Result<(), AllocError> {
        for _ in 0..u64::MAX {
            if self.open.is_empty() {
                break;
            }
            self.end_last()?;
        }
        Ok(())
    }

    fn end_last(&mut self) -> Result<(), AllocError> {
        self.open.pop();
        self.writer.end_array()?;
        self.end_node()
    }
}

/// Whether the word stands before the head of a function pointer or of a bound.
fn is_qualifier(word: &str) -> bool {
    word == "unsafe" || word == "extern" || word.starts_with("for(")
}

/// The number that stands in the word behind these letters, before `)` or `..)`.
fn count_within(word: &str, before: &str) -> Option<u64> {
    let rest = word.strip_prefix(before)?.strip_suffix(')')?;
    match rest.strip_suffix("..") {
        Some(digits) => digits.parse::<u64>().ok(),
        None => rest.parse::<u64>().ok(),
    }
}
