//! Answers goals that are typed, as `solve * Clone Vec u8`, behind the declarations of a small world. A line is one of the program's notation, and an empty one
//! ends it.

use rilgomut::{Global, Status, run_text};
use std::io::{self, BufRead, Write};

const DECLARATIONS: &str = "trait 1 Clone 0
trait 1 Iterator 0
assoc Iterator Item
adt 1 Vec 1
impl 1 clone_u8 0 + Clone u8
impl 1 clone_vec 1 + Clone Vec #0
iwhere clone_vec Clone #0
impl 1 items 1 + Iterator Vec #0
value items Item #0
";

/// What is answered to a line.
fn answer(line: &str) -> (Status, String) {
    let (mut answers, mut errors) = (Vec::new(), Vec::new());
    let status = run_text(Global, 0, format!("{DECLARATIONS}{line}\n").as_bytes(), &mut answers, &mut errors);
    let said = if status == Status::Done { answers } else { errors };
    (status, String::from_utf8_lossy(&said).trim_end().to_owned())
}

fn main() -> io::Result<()> {
    println!("{DECLARATIONS}\nsolve * Clone Vec u8, why * Clone Vec bool, normalize * Item Vec u8, ..");
    let mut lines = io::stdin().lock().lines();
    loop {
        print!("> ");
        io::stdout().flush()?;
        match lines.next().transpose()? {
            Some(line) if !line.trim().is_empty() => println!("{}", answer(&line).1),
            _ => return Ok(()),
        }
    }
}
