//! DWARF expressions.

use super::registers;
use crate::language::{Call, Output, Tested, number};
use dewikura::code_unwind::{Evaluator, StackCopy};

/// Prints the value of each expression of the input. With the option `copy` the first value of the input is the copy of the stack.
pub fn push_values(call: &Call<'_>, out: &mut Output) -> Tested {
    let mut expressions = call.arguments()?.into_iter();
    let mut copy = StackCopy {
        address: 0,
        bytes: &[],
    };
    if let Some(address) = call.case.number("copy")? {
        copy = StackCopy {
            address,
            bytes: expressions.next().ok_or("a case without a copy")?,
        };
    }
    let registers = registers(call.case.option("registers").unwrap_or(""))?;
    let firsts = call
        .case
        .option("first")
        .map(|list| list.split(',').collect::<Vec<_>>());
    let firsts = firsts.unwrap_or_else(|| vec!["-"; expressions.len()]);
    if firsts.len() != expressions.len() {
        return Err("another number of first values than of expressions".into());
    }
    let mut evaluator = Evaluator::new();
    for (expression, first) in expressions.zip(firsts) {
        let first = if first == "-" {
            None
        } else {
            Some(number(first)?)
        };
        match evaluator.evaluate(expression, &registers, &copy, first) {
            Ok(value) => writeln!(out, "{value:x}"),
            Err(error) => writeln!(out, "{error}"),
        }
    }
    Ok(())
}
