//! Frames of zstd, and deflate and zlib.

use crate::language::{Call, Output, Tested};
use crate::library::Global;
use dewikura::inflate::{inflate, inflate_zlib};
use dewikura::zstd::{StreamDecoder, decompress};

/// Prints the content of the frames, whose size is the option `size`, or the error.
pub fn push_content(call: &Call<'_>, out: &mut Output) -> Tested {
    let size = call.case.number("size")?.ok_or("a case without a size")?;
    match decompress(Global, call.bytes, usize::try_from(size)?) {
        Ok(content) => push_bytes(&content, out),
        Err(error) => writeln!(out, "{error}"),
    }
    Ok(())
}

/// Prints the output of deflate data, whose size is the option `size`, and the number of bytes that it takes, or the error.
pub fn push_inflated(call: &Call<'_>, out: &mut Output) -> Tested {
    let size = call.case.number("size")?.ok_or("a case without a size")?;
    match inflate(Global, call.bytes, usize::try_from(size)?) {
        Ok((output, consumed)) => {
            push_bytes(&output, out);
            writeln!(out, "{consumed} bytes");
        }
        Err(error) => writeln!(out, "{error}"),
    }
    Ok(())
}

/// Prints the output of zlib data, whose size is the option `size`, or the error.
pub fn push_zlib(call: &Call<'_>, out: &mut Output) -> Tested {
    let size = call.case.number("size")?.ok_or("a case without a size")?;
    match inflate_zlib(Global, call.bytes, usize::try_from(size)?) {
        Ok(output) => push_bytes(&output, out),
        Err(error) => writeln!(out, "{error}"),
    }
    Ok(())
}

/// Prints what is known after each piece of a stream, and at the first error what is wrong.
pub fn push_pieces(call: &Call<'_>, out: &mut Output) -> Tested {
    let mut decoder = StreamDecoder::new(Global);
    for piece in call.arguments()? {
        let mut rest = piece;
        let mut known = Vec::new();
        loop {
            match decoder.decode(&mut rest) {
                Ok(content) if content.is_empty() && rest.is_empty() => break,
                Ok(content) => known.extend_from_slice(content),
                Err(error) => {
                    push_bytes(&known, out);
                    writeln!(out, "{error}");
                    return Ok(());
                }
            }
        }
        push_bytes(&known, out);
    }
    writeln!(
        out,
        "between frames: {}, between blocks: {}",
        decoder.is_between_frames(),
        decoder.is_between_blocks()
    );
    Ok(())
}

/// Prints bytes in hexadecimal, or `nothing`.
fn push_bytes(bytes: &[u8], out: &mut Output) {
    if bytes.is_empty() {
        writeln!(out, "nothing");
        return;
    }
    let digits: Vec<String> = bytes.iter().map(|byte| format!("{byte:02x}")).collect();
    writeln!(out, "{}", digits.join(" "));
}
