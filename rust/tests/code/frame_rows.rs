//! Rows of call frame information.

use super::table;
use crate::language::{Call, Output, Tested};
use crate::library::Global;
use dewikura::code_cfi::{ByteRange, Cfa, FrameSection, FrameTable, REGISTER_COUNT, Rule};

/// The hexadecimal digits of an expression.
fn digits(table: &FrameTable, span: ByteRange) -> String {
    let bytes = table.byte_slice(span).unwrap_or(&[]);
    bytes.iter().map(|byte| format!("{byte:02x}")).collect()
}

fn cfa_text(table: &FrameTable, cfa: Cfa) -> String {
    match cfa {
        Cfa::Undefined => "undefined".into(),
        Cfa::Register(register, offset) => format!("r{register}{:+}", offset.cast_signed()),
        Cfa::Expression(span) => format!("exp({})", digits(table, span)),
    }
}

fn rule_text(table: &FrameTable, rule: Rule) -> String {
    match rule {
        Rule::SameValue => "s".into(),
        Rule::Undefined => "u".into(),
        Rule::Offset(offset) => format!("c{:+}", offset.cast_signed()),
        Rule::ValueOffset(offset) => format!("v{:+}", offset.cast_signed()),
        Rule::Register(register) => format!("r{register}"),
        Rule::Expression(span) => format!("exp({})", digits(table, span)),
        Rule::ValueExpression(span) => format!("vexp({})", digits(table, span)),
    }
}

/// Prints the row at an address.
fn push_row(table: &FrameTable, address: u64, out: &mut Output) {
    let Some(index) = table.find(address) else {
        return writeln!(out, "{address:x}: no FDE");
    };
    let found = match table.row(Global, index, address) {
        Ok(found) => found,
        Err(error) => return writeln!(out, "{address:x}: {error}"),
    };
    write!(out, "{address:x}: cfa={}", cfa_text(table, found.row.cfa()));
    for register in 0..REGISTER_COUNT as u64 {
        let rule = found.row.rule(register);
        if rule != Rule::SameValue {
            write!(out, " r{register}={}", rule_text(table, rule));
        }
    }
    let signal = if found.is_signal { " signal" } else { "" };
    writeln!(out, " return=r{}{signal}", found.return_address);
}

/// Prints the rows at the addresses after the section's bytes, and with the option `fdes` the FDEs before them.
pub fn push_rows(call: &Call<'_>, out: &mut Output) -> Tested {
    let sections = (
        call.case.number("eh_frame")?,
        call.case.number("debug_frame")?,
    );
    let (section, address) = match sections {
        (Some(address), None) => (FrameSection::EhFrame, address),
        (None, Some(address)) => (FrameSection::DebugFrame, address),
        _ => return Err("a case without a section".into()),
    };
    let table = table(call, section, address, call.bytes)?;
    if call.case.has("fdes") {
        table
            .fdes()
            .iter()
            .for_each(|fde| writeln!(out, "{:x} +{:x}", fde.start, fde.size));
    }
    for address in &call.values[1..] {
        push_row(&table, address.number()?, out);
    }
    Ok(())
}
