//! Tests of the eraser: for each form a text and what is left of it, and texts that it refuses.

// The eraser is a module of the build script. Each user of it leaves other functions unused.
#[allow(dead_code)]
#[path = "../erase/mod.rs"]
mod erase;

use erase::{Crate, Package, erase as erase_text};
use std::fs;
use std::path::Path;

const PRELUDE: &str = "use crate::shim::prelude::*; ";

/// What each item that can be copied gets.
const COPIED: &str = "{ fn try_clone(&self) -> ::core::result::Result<Self, crate::shim::std::alloc::AllocError> { Ok(*self) } }";

fn member() -> Crate {
    let names = |names: &[&str]| names.iter().map(|name| name.to_string()).collect();
    Crate {
        name: "own".to_string(),
        uses: names(&["other", "hex"]),
        siblings: names(&["own", "other", "third"]),
    }
}

fn erased(text: &str) -> String {
    let result = erase_text(text, &member(), false).unwrap_or_else(|error| panic!("{error}: {text}"));
    result.strip_prefix(PRELUDE).unwrap_or_else(|| panic!("no prelude: {result}")).to_string()
}

// Compares each text with what is expected of it, and what is left with itself erased once more.
fn check(forms: &[(&str, &str)]) {
    for (text, expected) in forms {
        let once = erased(text);
        assert_eq!(once, *expected, "of {text}");
        let again = erase_text(&format!("{PRELUDE}{once}"), &member(), false);
        assert_eq!(again, Ok(format!("{PRELUDE}{once}")), "erased twice: {text}");
    }
}

#[test]
fn clauses_go() {
    check(&[
        ("fn f(x: u8) -> u8 ensures { result ≡ x } { x }", "fn f(x: u8) -> u8  { x }"),
        ("fn f() requires ready { s ≡ \"}\" } ensures* held a b { A' } by { search } {}", "fn f()   {}"),
        ("trait T { fn f(&self) ensures { x } ensures y { z }; }", "trait T { fn f(&self)  ; }"),
        ("let g = |x: u8| -> u8 requires { x < 3 } ensures { result ≡ x } { x };", "let g = |x: u8| -> u8   { x };"),
        ("fn f()\n    ensures { a\n        b }\n{}", "fn f()\n    \n\n{}"),
    ]);
}

#[test]
fn ghost_items_go() {
    check(&[
        ("ghost use Rattle.std.specs.Prelude.{◌≡◌, [], length};\nuse a::b;", "\nuse a::b;"),
        ("struct S { x: u8, /// Says it.\n    pub ghost within: { x ≤ 3 } by { a, b }, }", "struct S { x: u8, \n }"),
        ("struct S { x: u8, ghost last: { x ≡ 1 } }", "struct S { x: u8, }"),
        ("trait T { ghost state: { Self → ℕ }; ghost d: { ℕ } = { 0 }; fn f(); }", "trait T {   fn f(); }"),
        ("impl T for S { pub(crate) ghost state = { λ s. s.0 }; }", "impl T for S {  }"),
    ]);
}

#[test]
fn attributes_of_the_prover_go() {
    check(&[
        ("#[tactic(auto, using(crate::proofs::A::b))]\nfn f() {}", "\nfn f() {}"),
        ("#[cycle(tree)] #[inline(always)] fn f() {}", " #[inline(always)] fn f() {}"),
    ]);
    let root = "//! Docs.\n#![tactic(auto)]\nmod a;";
    assert_eq!(erase_text(root, &member(), true), Ok(format!("//! Docs.\n\n{PRELUDE}mod a;")));
}

#[test]
fn paths_lead_to_the_shim_and_to_other_crates() {
    check(&[
        ("use std::io; fn f(x: std::io::Error) {}", "use crate::shim::std::io; fn f(x: crate::shim::std::io::Error) {}"),
        ("use std::{fs, io};", "use crate::shim::std::{fs, io};"),
        ("use {std::fs, other::a};", "use {crate::shim::std::fs, crate::other::a};"),
        ("use other::a::{b, c}; pub use other;", "use crate::other::a::{b, c}; pub use crate::other;"),
        ("fn f() { hex::encode(third::x); a::hex::b(); }", "fn f() { crate::shim::hex::encode(third::x); a::hex::b(); }"),
        ("use crate::x; fn f() { crate::y::z(); }", "use crate::own::x; fn f() { crate::own::y::z(); }"),
        ("pub(crate) use super::std as s;", "pub(crate) use super::std as s;"),
        ("fn f(std: u8) { self.std.other(std) }", "fn f(std: u8) { self.std.other(std) }"),
    ]);
}

#[test]
fn each_module_imports_the_prelude() {
    check(&[("mod a { fn f() {} }\nmod b;", "mod a { use crate::shim::prelude::*; fn f() {} }\nmod b;")]);
}

#[test]
fn derives_of_drop_go() {
    check(&[
        ("#[derive(Drop)] struct S;", " struct S;"),
        ("#[derive(Debug, Drop, PartialEq)] struct S;", "#[derive(Debug, PartialEq)] struct S;"),
    ]);
}

#[test]
fn clones_may_fail() {
    let clone = "crate::shim::std::clone::TryClone";
    let result = "::core::result::Result<Self, crate::shim::std::alloc::AllocError>";
    let both = format!("{clone}::try_clone(a)?, b: {clone}::try_clone(b)?");
    check(&[
        (
            "#[derive(Clone, Copy)] struct S<'a, T>(&'a T);",
            &format!("#[derive(Clone, Copy)] struct S<'a, T>(&'a T); impl<'a, T> {clone} for S<'a, T> where T: ::core::marker::Copy {COPIED}"),
        ),
        (
            "#[derive(Clone, Drop)] struct S { a: A, b: B }",
            &format!(
                " struct S {{ a: A, b: B }} impl {clone} for S {{ fn try_clone(&self) -> {result} \
                 {{ Ok(match self {{ Self {{ a, b }} => Self {{ a: {both} }}, }}) }} }}"
            ),
        ),
        (
            "#[derive(Clone)] enum E { A, B(u8) }",
            &format!(
                " enum E {{ A, B(u8) }} impl {clone} for E {{ fn try_clone(&self) -> {result} \
                 {{ Ok(match self {{ Self::A => Self::A, Self::B(x0) => Self::B({clone}::try_clone(x0)?), }}) }} }}"
            ),
        ),
        ("fn f<T: Clone>(x: T) { x.clone()?; T::clone(&x)?; }", "fn f<T: TryClone>(x: T) { x.try_clone()?; T::try_clone(&x)?; }"),
        ("impl Clone for S { fn clone(&self) -> R { a } }", "impl TryClone for S { fn try_clone(&self) -> R { a } }"),
        ("Operation::Clone", "Operation::Clone"),
    ]);
}

#[test]
fn formatters_have_a_lifetime() {
    check(&[
        ("fn fmt<W: fmt::Write>(&self, f: &mut fmt::Formatter<W>) -> R {}", "fn fmt(&self, f: &mut fmt::Formatter<'_>) -> R {}"),
        ("fn f<'a, W: Write, T: A>(f: &mut Formatter<W>, t: &'a T) {}", "fn f<'a, T: A>(f: &mut Formatter<'_>, t: &'a T) {}"),
        ("fn f<W: Write, T: A>(f: &mut Formatter<W>, t: T) {}", "fn f< T: A>(f: &mut Formatter<'_>, t: T) {}"),
    ]);
}

#[test]
fn macros_are_those_of_the_shim() {
    check(&[
        ("println!(rt; \"{x}\")?;", "crate::shim::macros::println!(rt; \"{x}\")?;"),
        ("format!(in alloc; \"{}\", a)?", "crate::shim::macros::format!(in alloc; \"{}\", a)?"),
        ("vec![in alloc; 0; n]?", "crate::shim::macros::vec![in alloc; 0; n]?"),
        ("write!(f, \"{x}\"); a != b", "write!(f, \"{x}\"); a != b"),
        ("other::named! { a }", "crate::other::named! { a }"),
        ("fn f() { prove!(a < b); }", "fn f() { debug_assert!(a < b); }"),
        ("const _: () = prove!(A < 3);", "const _: () = assert!(A < 3);"),
        ("prove_eq!(a, b);", "debug_assert_eq!(a, b);"),
    ]);
}

#[test]
fn methods_that_take_an_allocator_have_names_of_their_own() {
    check(&[
        ("x.to_vec(alloc)?", "x.to_vec_in(alloc)?"),
        ("i.collect::<Vec<u8>>(alloc)?", "i.collect_in::<Vec<u8>>(alloc)?"),
        ("s.sort_by_key(alloc, |a| a.0)?", "s.sort_by_key_in(alloc, |a| a.0)?"),
        ("v.sort_by_key(|a| (a.0, a.1))?", "v.sort_by_key(|a| (a.0, a.1))?"),
        ("v.sort()?; s.sort(alloc)?", "v.sort()?; s.sort_in(alloc)?"),
        ("t.replace(alloc, a, b)?; mem.replace(a, b)", "t.replace_in(alloc, a, b)?; mem.replace(a, b)"),
        ("r.read_to_end(&mut v)?", "r.read_to_end_in(&mut v)?"),
        ("[a, b].concat(alloc)?; b.repeat(alloc, 2)?", "[a, b].concat_in(alloc)?; b.repeat_in(alloc, 2)?"),
    ]);
}

#[test]
fn serialize_becomes_an_impl() {
    let text = "#[derive(Serialize)]\nstruct S {\n    #[serde(rename = \"type\")]\n    kind: u8,\n    \
                #[serde(skip_serializing_if = \"Option::is_none\")]\n    time: Option<u64>,\n    #[serde(flatten)]\n    body: B,\n}";
    let result = erased(text);
    for expected in [
        "impl crate::shim::serde::Described for S {}",
        "out.key(\"type\")?; crate::shim::serde::Serialize::serialize(kind, out)?;",
        "if !Option::is_none(time) { out.key(\"time\")?; crate::shim::serde::Serialize::serialize(time, out)?; }",
        "out.flatten_next()?; crate::shim::serde::Serialize::serialize(body, out)?; out.end_map()",
    ] {
        assert!(result.contains(expected), "{result}");
    }
    assert!(!result.contains("#["), "{result}");
    let result = erased("#[derive(Serialize)] #[serde(untagged)] enum E { A(u8), B { b: u8 } }");
    assert!(result.contains("Self::A(x0) => { crate::shim::serde::Serialize::serialize(x0, out) }"), "{result}");
    assert!(result.contains("Self::B { b } => { out.begin_map(None)?; out.key(\"b\")?;"), "{result}");
}

#[test]
fn exports_take_what_c_passes() {
    check(&[(
        "#[unsafe(no_mangle)] pub extern \"C\" fn f(alloc: Global, a: &[u8], b: &mut [T], n: u64, m: &mut M) -> u32 { g() }",
        "#[unsafe(no_mangle)] pub unsafe extern \"C\" fn f( a: *const u8, a_len: usize, b: *mut T, b_len: usize, n: u64, m: &mut M) -> u32 \
         { let alloc = Global; let a = unsafe { crate::shim::c::slice(a, a_len) }; \
         let b = unsafe { crate::shim::c::slice_mut(b, b_len) }; g() }",
    )]);
}

#[test]
fn main_is_public_and_takes_nothing() {
    let result = erase_text("fn main(rt: HostRuntime) -> E { run(&rt) }", &member(), true);
    assert_eq!(result, Ok(format!("{PRELUDE}pub fn main() -> E {{ let rt = HostRuntime; run(&rt) }}")));
    check(&[("fn main(rt: HostRuntime) {}", "fn main(rt: HostRuntime) {}")]);
}

#[test]
fn examples_of_docs_are_not_compiled() {
    check(&[
        ("/// ```\n/// f();\n/// ```\nfn f() {}", "/// ```ignore\n/// f();\n/// ```\nfn f() {}"),
        ("/// ```text\n/// f();\n/// ```\nfn f() {}", "/// ```text\n/// f();\n/// ```\nfn f() {}"),
    ]);
}

#[test]
fn strings_comments_and_lifetimes_stay() {
    let texts = [
        "fn f() -> &'static str { r#\"ensures { \" std::io\"# }",
        "fn f() { /* ghost /* std::x */ requires */ let c = '\"'; let d = '\\''; let e = b'{'; }",
        "fn f<'ghosts>(x: &'ghosts str) { 'outer: loop { break 'outer; } }",
        "fn f() { // ensures { std::io }\n let x = 1.5e3; let y = 0..3; let z = \"std::io \\\" ghost\"; }",
    ];
    for text in texts {
        assert_eq!(erased(text), text);
    }
}

#[test]
fn unknown_forms_are_refused_with_their_line() {
    for (text, line, what) in [
        ("fn f()\n    ensures { x", 2, "a clause or a ghost item without an end"),
        ("fn f() {\n    ensures\n}", 2, "a clause or a ghost item without an end"),
        ("let ghost = 1;", 1, "a ghost item of an unknown form"),
        ("\n\nfn f() { ghost.x() }", 3, "a ghost item of an unknown form"),
        ("#[derive(Debug, Ordered)]\nstruct S;", 1, "a derive that isn't known: Ordered"),
        ("\n#[repair]\nfn f() {}", 2, "an attribute that isn't known"),
        ("#[derive(Serialize)] struct S { #[serde(skip)] a: u8 }", 1, "an option of serde that isn't known: skip"),
        ("#[derive(Serialize)] enum E { A }", 1, "a derive of `Serialize` for an enum that isn't untagged"),
        ("struct S {\n    #[doc = \"x\"]\n    ghost a: { b },\n}", 2, "an attribute of a ghost item"),
        ("#[unsafe(no_mangle)] pub extern \"C\" fn f(a: Vec<u8>) {}", 1, "a parameter that C can't pass"),
        ("fn f() {\n    (]\n}", 2, "a bracket without its partner"),
        ("let a = ≡;", 1, "a character that isn't ASCII outside of texts and clauses"),
        ("prove_all!(x);", 1, "an unknown form of `prove!`"),
    ] {
        let error = erase_text(text, &member(), false).expect_err(text);
        assert_eq!((error.line, error.what.as_str()), (line, what), "of {text}");
    }
}

#[test]
fn a_package_has_the_crates_of_its_list() {
    let root = Path::new(env!("CARGO_MANIFEST_DIR"));
    let package = Package::read(root).expect("crates.txt");
    assert!(package.crates.len() > 20);
    for member in &package.crates {
        assert!(package.sources(member).is_dir(), "{}", member.name);
        assert!(member.siblings.contains(&member.name));
    }
}

// Each source of the repository, erased twice, is what it is erased once, and has as many lines.
#[test]
fn each_source_is_erased_alike_twice() {
    let package = Package::read(Path::new(env!("CARGO_MANIFEST_DIR"))).expect("crates.txt");
    let mut count = 0;
    for member in &package.crates {
        for file in package.files(member).expect("the sources") {
            let text = fs::read_to_string(&file).expect("a source");
            let once = erase_text(&text, member, false).unwrap_or_else(|error| panic!("{}:{error}", file.display()));
            assert_eq!(erase_text(&once, member, false).as_ref(), Ok(&once), "{}", file.display());
            assert_eq!(once.lines().count(), text.lines().count(), "{}", file.display());
            for word in ["ensures", "requires", "ghost"] {
                let is_left = once.lines().any(|line| line.trim_start().starts_with(&format!("{word} ")));
                assert!(!is_left, "{word} in {}", file.display());
            }
            count += 1;
        }
    }
    assert!(count > 300);
}
