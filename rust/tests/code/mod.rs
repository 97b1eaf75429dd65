//! The calls of call frame information, of DWARF expressions, of chains of frames, of demanglers and of decompressors.

mod chains;
mod expressions;
mod frame_rows;
mod streams;

use crate::language::{Call, Output, Tested, number};
use crate::library::Global;
use dewikura::code_cfi::{FrameSection, FrameTable, Machine};
use dewikura::code_unwind::FrameRegisters;
use dewikura::demangle::{Demangler, Style};

/// Makes the call of a case, if this module has it.
pub fn call(call: &Call<'_>, out: &mut Output) -> Tested<bool> {
    match call.case.call {
        "frame-rows" => frame_rows::push_rows(call, out)?,
        "expressions" => expressions::push_values(call, out)?,
        "chains" => chains::push_chains(call, out)?,
        "demangle" => push_text(call, out)?,
        "inflate" => streams::push_inflated(call, out)?,
        "zlib" => streams::push_zlib(call, out)?,
        "zstd" => streams::push_content(call, out)?,
        "zstd-pieces" => streams::push_pieces(call, out)?,
        _ => return Ok(false),
    }
    Ok(true)
}

/// Prints the text of a mangled name, or the name if it has none; with the option `signature` with its parameters.
fn push_text(call: &Call<'_>, out: &mut Output) -> Tested {
    let style = if call.case.has("signature") {
        Style::Signature
    } else {
        Style::Name
    };
    let mut demangler = Demangler::new(Global);
    let is_mangled = demangler.demangle(call.bytes, style)?;
    let text = if is_mangled {
        demangler.text()
    } else {
        call.bytes
    };
    writeln!(out, "{}", str::from_utf8(text)?);
    Ok(())
}

/// The machine of the option `x86-64` or `aarch64`.
fn machine(call: &Call<'_>) -> Tested<Machine> {
    match (call.case.has("x86-64"), call.case.has("aarch64")) {
        (true, false) => Ok(Machine::X86_64),
        (false, true) => Ok(Machine::AArch64),
        _ => Err("a case without a machine".into()),
    }
}

/// The registers of a list of `NUMBER:VALUE`.
fn registers(text: &str) -> Tested<FrameRegisters> {
    let mut registers = FrameRegisters::new();
    for word in text.split_terminator(',') {
        let (name, value) = word.split_once(':').ok_or("a register without a value")?;
        registers.set(number(name)?, Some(number(value)?));
    }
    Ok(registers)
}

/// The table of a section at an address.
fn table(call: &Call<'_>, section: FrameSection, address: u64, bytes: &[u8]) -> Tested<FrameTable> {
    let bytes = crate::library::vec(bytes);
    Ok(FrameTable::new(
        Global,
        machine(call)?,
        section,
        address,
        bytes,
    )?)
}
