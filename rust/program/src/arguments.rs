// Made of `crates/rilgomut/src/arguments.rt` by `bench/plain.py`: an edit of this file is lost.

//! What the program's arguments ask for.

use kit::{eprintln, format, prelude::*, print, println, vec};
use assembly_text::help::add_help;
use assembly_text::options::Options;
use kit::clap::{Arg, ArgAction, ArgMatches, Command, Error};
use kit::alloc::{Alloc, Global};
use kit::env::{Env, args};

const VERSION: &str = "0.1.0, after rustc_next_trait_solver 0.166.0";

const ABOUT: &str = "\
Reads declarations and queries, a line each, and prints an answer a query. Without a FILE they come from the standard input.";

/// How the program ends.
const STATUSES: &str = "\
Statuses:
  0  all lines were read
  1  the same, and `check` found something
  2  a line or an argument is bad, or a file can't be opened
  3  a device failed while it was read or written
  4  all lines were read, and a query stopped without an answer

Lines, the words that may stand at each place of one, and at all further places:
";

/// What the arguments ask for.
#[derive(Debug)]
pub enum Asked {
    /// A run with these options, over the files of these names, or over the standard input where there is none.
    Run(Options, Vec<String>),
    /// This text.
    Text(String),
    /// Nothing, for this reason.
    Nothing(String),
}

/// The program's name and its arguments, if they can be read.
pub fn words_of<R: Env + Alloc<A = Global>>(rt: &R) -> Option<Vec<String>> {
    args(rt).ok()?.kit_collect(rt.alloc()).ok()
}

/// What the words ask for, of which the first one is the program's name.
pub fn parse(alloc: Global, words: &[String]) -> Asked {
    match try_parse(alloc, words) {
        Ok(asked) => asked,
        Err(error) => {
            let is_refusal = error.use_stderr();
            match error.to_string(alloc) {
                Ok(text) if is_refusal => Asked::Nothing(text),
                Ok(text) => Asked::Text(text),
                Err(_) => Asked::Nothing(String::new(alloc)),
            }
        }
    }
}

fn try_parse(alloc: Global, words: &[String]) -> Result<Asked, Error> {
    let mut further = String::from_str(alloc, STATUSES)?;
    add_help(&mut further)?;
    let matches = matches_of(alloc, further.as_str(), words)?;
    run_of(alloc, &matches)
}

fn matches_of<'a>(
    alloc: Global,
    further: &'a str,
    words: &'a [String],
) -> Result<ArgMatches<'a>, Error> {
    let file = Arg::new(alloc, "FILE")
        .action(ArgAction::Append)
        .help("Files of lines, which are one text, in their order");
    let json = Arg::new(alloc, "json")
        .long("json")
        .action(ArgAction::SetTrue)
        .help("Print an object of JSON for each answer");
    let reasons = Arg::new(alloc, "reasons")
        .long("reasons")
        .action(ArgAction::SetTrue)
        .help("Print the reasons behind each answer");
    Command::new(alloc, "rilgomut")
        .version(VERSION)
        .about(ABOUT)
        .after_help(further)
        .arg(file)?
        .arg(json)?
        .arg(reasons)?
        .try_get_matches_from(words)
}

/// The run that is asked for.
fn run_of(alloc: Global, matches: &ArgMatches<'_>) -> Result<Asked, Error> {
    let options = Options {
        reasons: matches.get_flag("reasons"),
        json: matches.get_flag("json"),
        tells_more: true,
    };
    let mut files = Vec::new(alloc);
    for name in matches.get_strs("FILE").unwrap_or(&[]) {
        files.push(String::from_str(alloc, name)?)?;
    }
    Ok(Asked::Run(options, files))
}
