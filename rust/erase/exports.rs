//! Functions that C or the system calls.

use super::Failure;
use super::forms::Eraser;
use super::text::Source;

/// Makes `main` of a program a public function without a parameter.
pub fn erase_main(eraser: &mut Eraser<'_>, index: usize) -> Result<(), Failure> {
    let source = &eraser.source;
    let is_main = eraser.is_root && source.is_word(index + 1, "main") && source.is_marks(index + 2, "(");
    if !is_main || (index > 0 && source.is_word(index - 1, "pub")) {
        return Ok(());
    }
    let close = source.partner(index + 2);
    let parameter = source.word(index + 3);
    eraser.source.insert_before(index, "pub ");
    if close == index + 3 {
        return Ok(());
    }
    let body = body_after(&eraser.source, close)?;
    eraser.remove(index + 3, close - 1);
    eraser.source.insert_after(body, &format!(" let {parameter} = HostRuntime;"));
    Ok(())
}

// The index of the brace of a function's body, after its parameters.
fn body_after(source: &Source<'_>, close: usize) -> Result<usize, Failure> {
    (close..source.len())
        .find(|at| source.is_marks(*at, "{"))
        .ok_or_else(|| source.failure(close, "a function without a body"))
}

/// Gives an exported function the parameters that C passes: a slice is a pointer and a length. `close` is the
/// end of the attribute.
pub fn erase_export(eraser: &mut Eraser<'_>, close: usize) -> Result<(), Failure> {
    let source = &eraser.source;
    let Some(function) = (close..source.len().min(close + 6)).find(|at| source.is_word(*at, "fn")) else {
        return Err(source.failure(close, "an exported item that isn't a function"));
    };
    if source.is_word(function - 3, "unsafe") {
        return Ok(());
    }
    if !source.is_word(function - 2, "extern") || !source.is_marks(function + 2, "(") {
        return Err(source.failure(function, "an exported function that isn't C's"));
    }
    let open = function + 2;
    let end = source.partner(open);
    let body = body_after(source, end)?;
    let mut statements = String::new();
    let mut has_pointers = false;
    for (first, last) in source.split(open + 1, end)? {
        let name = eraser.source.word(first);
        let shape: Vec<&str> = (first + 2..last).map(|at| eraser.source.word(at)).collect();
        match shape.as_slice() {
            ["Global"] => {
                statements.push_str(&format!(" let {name} = Global;"));
                let after = if eraser.source.is_marks(last, ",") { last } else { last - 1 };
                eraser.remove(first, after);
            }
            ["&", "[", ..] | ["&", "mut", "[", ..] => {
                has_pointers = true;
                statements.push_str(&slice_parameter(eraser, first, last));
            }
            // A reference to a struct is a pointer.
            ["&", "mut", path @ ..] | ["&", path @ ..] | path if path.iter().all(|part| is_path(part)) => {}
            _ => return Err(eraser.source.failure(first, "a parameter that C can't pass")),
        }
    }
    if has_pointers {
        eraser.source.insert_before(function - 2, "unsafe ");
    }
    if !statements.is_empty() {
        eraser.source.insert_after(body, &statements);
    }
    Ok(())
}

fn is_path(part: &str) -> bool {
    part == ":" || part.starts_with(|first: char| first.is_ascii_alphanumeric())
}

// Makes the slice from `first` to `last` two parameters. Returns the statement that joins them.
fn slice_parameter(eraser: &mut Eraser<'_>, first: usize, last: usize) -> String {
    let source = &eraser.source;
    let name = source.word(first);
    let is_mutable = source.is_word(first + 3, "mut");
    let open = if is_mutable { first + 4 } else { first + 3 };
    let element = source.between(open + 1, source.partner(open) - 1);
    let (pointer, function) = if is_mutable { ("*mut", "slice_mut") } else { ("*const", "slice") };
    let replacement = format!("{pointer} {element}, {name}_len: usize");
    eraser.source.replace(first + 2, last - 1, &replacement);
    eraser.finish(first + 2, last - 1);
    format!(" let {name} = unsafe {{ crate::shim::c::{function}({name}, {name}_len) }};")
}
