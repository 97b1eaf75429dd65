//! Derives: those that Rust lacks become impls.

use super::Failure;
use super::forms::Eraser;
use super::items::{Body, Field, Fields, Item};

/// Derives that Rust, or the crate thiserror, has.
const KEPT: [&str; 9] = [
    "Clone", "Copy", "Debug", "Default", "Eq", "Error", "Hash", "Ord", "PartialEq",
];

/// Changes a derive. `Drop` goes, and `Serialize` and `Clone` become impls after the item.
pub fn erase_derive(eraser: &mut Eraser<'_>, index: usize) -> Result<(), Failure> {
    let source = &eraser.source;
    let close = source.partner(index + 1);
    let names: Vec<&str> = (index + 4..close - 1)
        .map(|at| source.word(at))
        .filter(|word| *word != ",")
        .collect();
    if let Some(unknown) = names.iter().find(|name| !is_known(name)) {
        return Err(source.failure(index, &format!("a derive that isn't known: {unknown}")));
    }
    let is_copied = names.contains(&"Copy");
    let is_kept = |name: &&str| KEPT.contains(name) && (*name != "Clone" || is_copied) || *name == "PartialOrd";
    let kept: Vec<&str> = names.iter().copied().filter(is_kept).collect();
    let (item, options) = Item::parse(source, index)?;
    let mut impls = String::new();
    if names.contains(&"Clone") {
        impls.push_str(&if is_copied { copied(&item) } else { cloned(&item) });
    }
    if names.contains(&"Serialize") {
        let written = serialized(&item, &options).map_err(|what| eraser.source.failure(index, &what))?;
        impls.push_str(&written);
    }
    let last = item.last;
    if kept.is_empty() {
        eraser.remove(index, close);
    } else if kept.len() < names.len() {
        eraser.source.replace(index, close, &format!("#[derive({})]", kept.join(", ")));
        eraser.finish(index, close);
    } else {
        eraser.finish(index, close);
    }
    if !impls.is_empty() && !follows(eraser, last, &impls) {
        eraser.source.insert_after(last, &impls);
    }
    Ok(())
}

// Whether the impls are there already, in a text that was erased before.
fn follows(eraser: &Eraser<'_>, last: usize, impls: &str) -> bool {
    eraser.source.text[eraser.source.tokens[last].end..].starts_with(impls)
}

fn is_known(name: &&str) -> bool {
    KEPT.contains(name) || ["Drop", "PartialOrd", "Serialize"].contains(name)
}

fn head(item: &Item<'_>, of: &str, bound: &str) -> String {
    let mut bounds: Vec<String> = Vec::new();
    for name in &item.generics.types {
        bounds.push(format!("{name}: {bound}"));
    }
    if !item.bounds.is_empty() {
        bounds.push(item.bounds.trim_end_matches(',').to_string());
    }
    let bounds = if bounds.is_empty() { String::new() } else { format!(" where {}", bounds.join(", ")) };
    let declaration = item.generics.declaration();
    let arguments = item.generics.arguments();
    format!(" impl{declaration} {of} for {}{arguments}{bounds}", item.name)
}

const CLONE_RESULT: &str = "::core::result::Result<Self, crate::shim::std::alloc::AllocError>";

fn copied(item: &Item<'_>) -> String {
    let head = head(item, "crate::shim::std::clone::TryClone", "::core::marker::Copy");
    format!("{head} {{ fn try_clone(&self) -> {CLONE_RESULT} {{ Ok(*self) }} }}")
}

fn cloned(item: &Item<'_>) -> String {
    let head = head(item, "crate::shim::std::clone::TryClone", "crate::shim::std::clone::TryClone");
    let arms = arms(item, &|_, fields| {
        let clones: Vec<String> = fields
            .bindings()
            .iter()
            .map(|name| format!("crate::shim::std::clone::TryClone::try_clone({name})?"))
            .collect();
        Ok(fields.with(&clones))
    });
    let arms = arms.unwrap_or_default();
    let arms: String = arms.iter().map(|(path, pattern, value)| format!("{path}{pattern} => {path}{value}, ")).collect();
    format!("{head} {{ fn try_clone(&self) -> {CLONE_RESULT} {{ Ok(match self {{ {arms}}}) }} }}")
}

type Arm = (String, String, String);

// For each variant its path, its pattern, and what `value` makes of it.
fn arms(item: &Item<'_>, value: &dyn Fn(&str, &Fields<'_>) -> Result<String, String>) -> Result<Vec<Arm>, String> {
    let arm = |path: String, fields: &Fields<'_>| -> Result<Arm, String> {
        let pattern = fields.with(&fields.bindings());
        let made = value(&path, fields)?;
        Ok((path, pattern, made))
    };
    match &item.body {
        Body::Struct(fields) => Ok(vec![arm("Self".to_string(), fields)?]),
        Body::Enum(variants) => variants
            .iter()
            .map(|variant| arm(format!("Self::{}", variant.name), &variant.fields))
            .collect(),
    }
}

// Rattle's `Serialize`: a struct is a map of its fields; an untagged enum is what its variant contains.
fn serialized(item: &Item<'_>, options: &[Vec<&str>]) -> Result<String, String> {
    let is_untagged = options.iter().any(|option| option == &["untagged"]);
    if options.len() > usize::from(is_untagged) {
        return Err("an option of serde that isn't known".to_string());
    }
    if matches!(item.body, Body::Enum(_)) && !is_untagged {
        return Err("a derive of `Serialize` for an enum that isn't untagged".to_string());
    }
    let described = head(item, "crate::shim::serde::Described", "crate::shim::serde::Serialize");
    let head = head(item, "crate::shim::serde::Serialize", "crate::shim::serde::Serialize");
    let arms = arms(item, &|_, fields| members(fields))?;
    let arms: String = arms.iter().map(|(path, pattern, value)| format!("{path}{pattern} => {value} ")).collect();
    Ok(format!(
        "{described} {{}}{head} {{ fn serialize<SerializerType: crate::shim::serde::Serializer>(&self, \
         out: &mut SerializerType) -> ::core::result::Result<(), SerializerType::Error> {{ match self {{ {arms}}} }} }}"
    ))
}

fn members(fields: &Fields<'_>) -> Result<String, String> {
    match fields {
        Fields::Unit => Ok("{ out.unit() }".to_string()),
        Fields::Tuple(fields) if fields.len() == 1 && fields[0].options.is_empty() => {
            Ok("{ crate::shim::serde::Serialize::serialize(x0, out) }".to_string())
        }
        Fields::Tuple(_) => Err("a derive of `Serialize` for fields in parentheses".to_string()),
        Fields::Named(fields) => {
            let written: Result<String, String> = fields.iter().map(member).collect();
            Ok(format!("{{ out.begin_map(None)?; {}out.end_map() }}", written?))
        }
    }
}

fn member(field: &Field<'_>) -> Result<String, String> {
    let mut key = format!("\"{}\"", field.name);
    let mut is_flattened = false;
    let mut condition = None;
    for option in &field.options {
        match option.as_slice() {
            ["rename", "=", name] => key = name.to_string(),
            ["flatten"] => is_flattened = true,
            ["skip_serializing_if", "=", function] => condition = Some(function.trim_matches('"')),
            _ => return Err(format!("an option of serde that isn't known: {}", option.join(" "))),
        }
    }
    let name = field.name;
    let before = if is_flattened { "out.flatten_next()?;".to_string() } else { format!("out.key({key})?;") };
    let written = format!("{before} crate::shim::serde::Serialize::serialize({name}, out)?; ");
    Ok(match condition {
        Some(function) => format!("if !{function}({name}) {{ {written}}} "),
        None => written,
    })
}
