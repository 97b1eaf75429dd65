//! The declarations of types and functions, as far as other forms need them.

use super::Failure;
use super::forms::Eraser;
use super::lexer::Kind;
use super::text::Source;

/// A struct or an enum.
pub struct Item<'a> {
    pub name: &'a str,
    pub generics: Generics<'a>,
    /// What stands between `where` and the body.
    pub bounds: &'a str,
    pub body: Body<'a>,
    /// The index of the item's last token.
    pub last: usize,
}

/// The parameters of a type.
#[derive(Default)]
pub struct Generics<'a> {
    /// As they are declared, without defaults.
    pub declared: Vec<&'a str>,
    /// Their names, in order.
    pub names: Vec<&'a str>,
    /// The names of the types among them.
    pub types: Vec<&'a str>,
}

pub enum Body<'a> {
    Struct(Fields<'a>),
    Enum(Vec<Variant<'a>>),
}

pub struct Variant<'a> {
    pub name: &'a str,
    pub fields: Fields<'a>,
}

pub enum Fields<'a> {
    Unit,
    Tuple(Vec<Field<'a>>),
    Named(Vec<Field<'a>>),
}

/// A field: its name, empty in parentheses, and the attributes before it.
pub struct Field<'a> {
    pub name: &'a str,
    pub options: Vec<Vec<&'a str>>,
}

impl<'a> Generics<'a> {
    /// The parameters of an `impl`, in angles.
    pub fn declaration(&self) -> String {
        angles(&self.declared)
    }

    /// The arguments of the type, in angles.
    pub fn arguments(&self) -> String {
        angles(&self.names)
    }

    fn parse(source: &Source<'a>, open: usize, end: usize) -> Result<Generics<'a>, Failure> {
        let mut generics = Generics::default();
        for (first, last) in source.split(open + 1, end - 1)? {
            let default = (first..last).find(|at| source.is_marks(*at, "="));
            generics.declared.push(source.between(first, default.unwrap_or(last) - 1));
            let is_constant = source.is_word(first, "const");
            let name = source.word(if is_constant { first + 1 } else { first });
            generics.names.push(name);
            if !is_constant && source.kind(first) == Some(Kind::Word) {
                generics.types.push(name);
            }
        }
        Ok(generics)
    }
}

fn angles(parts: &[&str]) -> String {
    if parts.is_empty() {
        return String::new();
    }
    format!("<{}>", parts.join(", "))
}

/// Skips attributes, doc comments and a visibility. Returns the options of `serde` among the attributes.
pub fn skip_attributes<'a>(source: &Source<'a>, index: &mut usize) -> Vec<Vec<&'a str>> {
    let mut options = Vec::new();
    loop {
        if source.kind(*index) == Some(Kind::OuterDoc) {
            *index += 1;
        } else if source.is_marks(*index, "#") && source.is_marks(*index + 1, "[") {
            let close = source.partner(*index + 1);
            if source.is_word(*index + 2, "serde") {
                options.extend(serde_options(source, *index + 3));
            }
            *index = close + 1;
        } else if source.is_word(*index, "pub") {
            *index += 1;
            if source.is_marks(*index, "(") {
                *index = source.partner(*index) + 1;
            }
        } else {
            return options;
        }
    }
}

// The options in the parentheses at `open`, each as its tokens.
fn serde_options<'a>(source: &Source<'a>, open: usize) -> Vec<Vec<&'a str>> {
    let close = source.partner(open);
    let words: Vec<&str> = (open + 1..close).map(|at| source.word(at)).collect();
    words.split(|word| *word == ",").map(<[&str]>::to_vec).collect()
}

impl<'a> Item<'a> {
    /// Parses the struct or enum whose attributes begin at `index`, and returns its own options too.
    pub fn parse(source: &Source<'a>, index: usize) -> Result<(Item<'a>, Vec<Vec<&'a str>>), Failure> {
        let mut at = index;
        let options = skip_attributes(source, &mut at);
        let keyword = source.word(at);
        if keyword != "struct" && keyword != "enum" {
            return Err(source.failure(at, "a derive before what is neither a struct nor an enum"));
        }
        let name = source.word(at + 1);
        at += 2;
        let mut generics = Generics::default();
        if source.is_marks(at, "<") {
            let end = source.after_angles(at)?;
            generics = Generics::parse(source, at, end)?;
            at = end;
        }
        let bounds = where_clause(source, &mut at);
        let body = if keyword == "enum" {
            Body::Enum(variants(source, at)?)
        } else {
            Body::Struct(Fields::parse(source, at)?)
        };
        let mut last = source.partner(at);
        if source.is_marks(at, "(") {
            last += 1;
        }
        let item = Item {
            name,
            generics,
            bounds,
            body,
            last,
        };
        Ok((item, options))
    }
}

// The bounds after `where`, up to the body.
fn where_clause<'a>(source: &Source<'a>, at: &mut usize) -> &'a str {
    if !source.is_word(*at, "where") {
        return "";
    }
    let first = *at + 1;
    while !source.is_marks(*at, "{") && !source.is_marks(*at, ";") {
        *at += 1;
    }
    if *at == first { "" } else { source.between(first, *at - 1) }
}

fn variants<'a>(source: &Source<'a>, open: usize) -> Result<Vec<Variant<'a>>, Failure> {
    let mut variants = Vec::new();
    for (first, last) in source.split(open + 1, source.partner(open))? {
        let mut at = first;
        skip_attributes(source, &mut at);
        let name = source.word(at);
        let fields = if at + 1 < last { Fields::parse(source, at + 1)? } else { Fields::Unit };
        variants.push(Variant { name, fields });
    }
    Ok(variants)
}

impl<'a> Fields<'a> {
    fn parse(source: &Source<'a>, open: usize) -> Result<Fields<'a>, Failure> {
        let is_named = source.is_marks(open, "{");
        if !is_named && !source.is_marks(open, "(") {
            return Ok(Fields::Unit);
        }
        let mut fields = Vec::new();
        for (first, last) in source.split(open + 1, source.partner(open))? {
            let mut at = first;
            let options = skip_attributes(source, &mut at);
            // Ghost fields are no fields of what is left.
            if at >= last || source.kind(at) == Some(Kind::Ghost) {
                continue;
            }
            let name = if is_named { source.word(at) } else { "" };
            fields.push(Field { name, options });
        }
        Ok(if is_named { Fields::Named(fields) } else { Fields::Tuple(fields) })
    }

    /// The fields' names, or `x0` and so on.
    pub fn bindings(&self) -> Vec<String> {
        match self {
            Fields::Unit => Vec::new(),
            Fields::Tuple(fields) => (0..fields.len()).map(|at| format!("x{at}")).collect(),
            Fields::Named(fields) => fields.iter().map(|field| field.name.to_string()).collect(),
        }
    }

    /// The fields in the form of a pattern or a value, with what is written for each.
    pub fn with(&self, values: &[String]) -> String {
        match self {
            Fields::Unit => String::new(),
            Fields::Tuple(_) => format!("({})", values.join(", ")),
            Fields::Named(fields) => {
                let pairs = fields.iter().zip(values).map(|(field, value)| match value {
                    value if value == field.name => value.clone(),
                    value => format!("{}: {value}", field.name),
                });
                format!(" {{ {} }}", pairs.collect::<Vec<_>>().join(", "))
            }
        }
    }
}

/// Changes `fn f<W: Write>(.., f: &mut Formatter<W>)`, since Rust's formatter has no parameter.
pub fn erase_formatter(eraser: &mut Eraser<'_>, index: usize) -> Result<(), Failure> {
    let source = &eraser.source;
    if source.kind(index + 1) != Some(Kind::Word) || !source.is_marks(index + 2, "<") {
        return Ok(());
    }
    let open = source.after_angles(index + 2)?;
    if !source.is_marks(open, "(") {
        return Ok(());
    }
    let places: Vec<usize> = (open..source.partner(open))
        .filter(|at| source.is_word(*at, "Formatter") && source.is_marks(at + 1, "<") && source.is_marks(at + 3, ">"))
        .map(|at| at + 2)
        .collect();
    let Some(place) = places.first() else {
        return Ok(());
    };
    let writer = source.word(*place);
    let parts = source.split(index + 3, open - 1)?;
    let Some(at) = parts.iter().position(|part| source.word(part.0) == writer) else {
        return Ok(());
    };
    let (first, last) = match (parts.len(), at) {
        (1, _) => (index + 2, open - 1),
        (_, 0) => (parts[0].0, parts[1].0 - 1),
        _ => (parts[at - 1].1, parts[at].1 - 1),
    };
    eraser.remove(first, last);
    for place in places {
        eraser.source.replace(place, place, "'_");
    }
    Ok(())
}
