//! Tests of the language of cases: what a case with a mistake is, and what a file without cases is.

// The calls of the cases are in the other program of tests.
#[allow(dead_code, unused_imports)]
mod language;
#[allow(dead_code, unused_imports)]
mod library;

use language::{Call, CaseFile, Output, Runner, Tested, number};

/// The calls of the tests: `bytes` prints the bytes, `option` the value of the option `of`.
fn call(call: &Call<'_>, out: &mut Output) -> Tested<bool> {
    match call.case.call {
        "bytes" => out.push_line(call.bytes),
        "option" => out.push_line(&call.case.option("of")),
        _ => return Ok(false),
    }
    Ok(true)
}

/// The numbers of cases and of those with another result.
fn run(text: &str) -> Tested<(usize, usize)> {
    let file = CaseFile::new("text.test", text.to_string());
    let mut runner = Runner::new(call, false);
    runner.run_file(&file)?;
    Ok((runner.cases, runner.differing))
}

/// Whether a case has this result, or this message of an error. The name `two` is a definition before it.
fn has_result(text: &str, result: &str) -> Tested<bool> {
    let (_, differing) = run(&format!(
        "let two(byte) = byte byte\n\n{text}\n----\n{result}"
    ))?;
    Ok(differing == 0)
}

#[test]
fn results_are_compared() -> Tested {
    assert_eq!(run("bytes\n01 02\n----\n[1, 2]")?, (1, 0));
    assert_eq!(run("bytes\n01 02\n----\n[1, 3]")?, (1, 1));
    assert_eq!(
        run("# One case.\nbytes\n01\n----\n[1]\n\nbytes\n02\n----\n[1]")?,
        (2, 1)
    );
    Ok(())
}

#[test]
fn mistakes_in_files_are_errors() {
    assert!(run("").is_err());
    assert!(run("# Comments alone.").is_err());
    assert!(run("let one = 01").is_err());
    assert!(run("bytes\n01").is_err());
    assert!(run("let one\n\nbytes\n01\n----\n[1]").is_err());
    assert!(run("bytes\n01\n----\n[1]\nbytes\n02\n----\n[2]").is_err());
}

#[test]
fn mistakes_in_cases_are_named() -> Tested {
    let mistakes = [
        ("other\n01", "an unknown call: other"),
        ("bytes left\n01", "an unknown option: left"),
        ("bytes\nthree", "not a number: three"),
        (
            "bytes\nthree(01)",
            "an unknown function, or another number of arguments: three",
        ),
        (
            "bytes\ntwo(01, 02)",
            "an unknown function, or another number of arguments: two",
        ),
        ("bytes\n01 300", "a number in place of bytes"),
        ("bytes\nu8(\"a\")", "bytes in place of a number"),
        ("bytes\ncut(2, 01)", "a cut beyond the end"),
        ("bytes\npatch(1, 02, 01)", "a patch beyond the end"),
        ("bytes\nu8(1 - 2)", "a sum outside of 64 bits"),
        ("bytes\n\"a", "a text without its closing quote"),
        ("bytes\nu8(1", "'' in place of ')'"),
        (
            "bytes each-read=fail(Never)\n01",
            "an unknown kind of I/O errors: Never",
        ),
    ];
    for (text, message) in mistakes {
        assert!(
            has_result(text, &format!("invalid case: {message}"))?,
            "{text}"
        );
    }
    Ok(())
}

#[test]
fn inputs_have_their_bytes() -> Tested {
    let inputs = [
        ("bytes", "[]"),
        ("bytes\nff 0a \"az\"", "[255, 10, 97, 122]"),
        ("bytes\nu16(0x102, 3)", "[2, 1, 3, 0]"),
        ("bytes big-endian\nu16(0x102)", "[1, 2]"),
        ("bytes\ntwo(two(07))", "[7, 7, 7, 7]"),
        ("bytes\nu8(10 + 3 - 1) digits(100)", "[12, 49, 48, 48]"),
        ("bytes\nfor(3, u8(times(2, n)))", "[0, 2, 4]"),
        (
            "bytes\ncut(1, 01 02) patch(1, 09, 01 02) repeat(2, 05)",
            "[1, 1, 9, 5, 5]",
        ),
        ("bytes each=1..3\nu8(n)", "1: [1]\n2: [2]\n3: [3]"),
        ("bytes each-length\n01 02", "0: []\n1: [1]\n2: [1, 2]"),
        ("option of=7", "Some(\"7\")"),
    ];
    for (text, expected) in inputs {
        assert!(has_result(text, expected)?, "{text}");
    }
    Ok(())
}

#[test]
fn numbers_are_decimal_or_hexadecimal() -> Tested {
    assert_eq!(number("18446744073709551615")?, u64::MAX);
    assert_eq!(number("0x1f")?, 31);
    for word in ["", "1f", "-1", "0x", "18446744073709551616"] {
        assert!(number(word).is_err(), "{word}");
    }
    Ok(())
}
