//! Rows that call what stands over a context: the orphan check, the tables of types, and merging.

use crate::context::ir;
use crate::evaluator::checks::Asked;
use crate::evaluator::{checks, merging, structures};
use crate::notation::answers::Answer;
use crate::notation::parts::Table;
use crate::notation::reader::Reader;
use crate::notation::refusals::Refusal;
use crate::notation::rows::Row;
use candidate_ir::decl::context::Cx;
use kit::prelude::*;

/// The nodes that a row's operands are; where it has fewer, numbers of none.
#[derive(Clone, Copy)]
pub struct Operands {
    pub left: u32,
    pub right: u32,
    pub third: u32,
}

/// Makes the row's operands.
pub fn made<'a, T: Table>(
    reader: &mut Reader<'a>,
    table: &mut T,
    row: Row<'a>,
) -> Result<Operands, Refusal> {
    let [left, right, third] = reader.operands(table, row)?;
    Ok(Operands {
        left: left.node(),
        right: right.node(),
        third: third.node(),
    })
}

/// The reference of a row that asks about coherence, and what its normaliser holds.
pub fn asked<'a, T: Table>(
    reader: &mut Reader<'a>,
    table: &mut T,
    row: Row<'a>,
) -> Result<Asked, Refusal> {
    let [left, right, third] = reader.operands(table, row)?;
    Ok(Asked {
        reference: left.reference(),
        first: right.node(),
        other: third.node(),
    })
}

/// What the row answers; a node is noted.
pub fn answer<'a>(reader: &mut Reader<'a>, cx: &mut Cx, row: Row<'a>) -> Result<Answer, Refusal> {
    let alloc = reader.alloc;
    let of = match row.verb {
        "and" => return merging::both(alloc, row),
        "check" | "asks" | "knowable" | "is_plain" | "is_local_or_fundamental" => {
            let asked = asked(reader, cx, row)?;
            return checks::answer(alloc, cx, row, asked);
        }
        "requirements" => {
            let reference = reader.operand(cx, row.left)?.reference();
            return structures::required(alloc, cx, reference);
        }
        "cell" | "call" | "const_call" | "own_bounds" | "constraints" | "merge" => {
            made(reader, cx, row)?
        }
        _ => return ir::answer(reader, cx, row),
    };
    match row.verb {
        "constraints" | "merge" => merging::answer(alloc, cx, row, of),
        _ => structures::answer(alloc, cx, row, of.left),
    }
}
