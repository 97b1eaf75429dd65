//! Writes the text of each mangled name in standard input, one a line; other lines stay as they are. With the argument `--parameters` functions have
//! their parameters. `tests/check_demangle` and `tests/check_installed_names` run it.

use dewikura::demangle::{Demangler, Style};
use dewikura::shim::std::alloc::Global;
use std::env;
use std::error::Error;
use std::io::{self, BufWriter, Read, Write};

/// Writes the text of each line, or the line if it has none.
fn write_texts<W: Write>(lines: &[u8], style: Style, output: &mut W) -> Result<(), Box<dyn Error>> {
    let mut demangler = Demangler::new(Global);
    let lines = lines.strip_suffix(b"\n").unwrap_or(lines);
    for line in lines.split(|byte| *byte == b'\n') {
        let is_mangled = demangler.demangle(line, style)?;
        output.write_all(if is_mangled { demangler.text() } else { line })?;
        output.write_all(b"\n")?;
    }
    Ok(())
}

fn main() -> Result<(), Box<dyn Error>> {
    let has_parameters = env::args()
        .skip(1)
        .any(|argument| argument == "--parameters");
    let style = if has_parameters {
        Style::Signature
    } else {
        Style::Name
    };
    let mut lines = Vec::new();
    io::stdin().read_to_end(&mut lines)?;
    let mut output = BufWriter::new(io::stdout().lock());
    write_texts(&lines, style, &mut output)?;
    Ok(output.flush()?)
}
