//! The prototypes in a source of Rattle, of C and of Rust, each as C has it: `uint32_t(int64_t, const uint8_t *, size_t, uint64_t[4])`.
//! An array keeps its length, a number or a constant's name; Rust declares a pointer for it.

use std::collections::BTreeMap;

/// By the function's name.
pub type Prototypes = BTreeMap<String, String>;

/// What a Rattle crate exports.
pub fn exported(source: &str) -> Prototypes {
    after_each(&without_comments(source), "pub extern \"C\" fn ").map(|text| function(text, from_rattle)).collect()
}

/// What the `extern` blocks of a Rust file declare.
pub fn in_rust(source: &str) -> Prototypes {
    let source = without_comments(source);
    let blocks = after_each(&source, "extern \"C\" {").map(|text| &text[..text.find("\n}").unwrap_or(text.len())]);
    blocks.flat_map(|block| after_each(block, "fn ")).map(|text| function(text, from_rust)).collect()
}

/// What a C header declares.
pub fn in_header(source: &str) -> Prototypes {
    let lines = without_comments(source);
    let lines: Vec<&str> = lines.lines().filter(|line| !line.trim_start().starts_with('#')).collect();
    let text = lines.join(" ").replace("extern \"C\" {", "").replace('}', "").replace('*', " * ");
    let text = text.split_whitespace().collect::<Vec<_>>().join(" ");
    text.split(';').filter_map(c_function).collect()
}

/// The number that stands after a mark.
pub fn number_after(source: &str, mark: &str) -> Option<u64> {
    let digits = source.split_once(mark)?.1;
    digits[..digits.find(|c: char| !c.is_ascii_digit()).unwrap_or(digits.len())].parse().ok()
}

/// The same prototypes with a number in place of a constant that is an array's length.
pub fn with_length(prototypes: Prototypes, constant: &str, length: u64) -> Prototypes {
    let named = format!("[{constant}]");
    prototypes.into_iter().map(|(name, text)| (name, text.replace(&named, &format!("[{length}]")))).collect()
}

/// The same prototypes with a pointer for each array, as Rust declares it.
pub fn without_lengths(prototypes: &Prototypes) -> Prototypes {
    prototypes.iter().map(|(name, text)| (name.clone(), pointers(text))).collect()
}

fn pointers(prototype: &str) -> String {
    let mut parts = prototype.split('[');
    let first = parts.next().unwrap_or_default().to_string();
    parts.fold(first, |text, part| text + " *" + part.split_once(']').map_or("", |(_, rest)| rest))
}

fn after_each<'a>(source: &'a str, mark: &'a str) -> impl Iterator<Item = &'a str> {
    source.match_indices(mark).map(|(at, mark)| &source[at + mark.len()..])
}

/// `name(name: type, ..) -> type` and what follows it; lifetimes say nothing to C.
fn function(text: &str, types: fn(&str) -> String) -> (String, String) {
    let (name, rest) = text.split_once('(').unwrap_or((text, ""));
    let name = name.split('<').next().unwrap_or(name);
    let (parameters, rest) = rest.split_once(')').unwrap_or((rest, ""));
    let typed = parameters.split(',').filter_map(|parameter| parameter.split_once(':'));
    let parameters: Vec<String> = typed.map(|(_, kind)| types(kind.trim())).collect();
    let answer = rest.trim_start().strip_prefix("->").map_or("void".to_string(), |answer| {
        let kind = answer.trim_start().split(|c: char| c.is_whitespace() || c == ';').next();
        types(kind.unwrap_or_default())
    });
    (name.trim().to_string(), format!("{answer}({})", parameters.join(", ")))
}

/// A reference to an array is a pointer; a slice is a pointer and a count.
fn from_rattle(kind: &str) -> String {
    let Some(lent) = kind.strip_prefix('&') else {
        return number(kind).to_string();
    };
    let lent = lent.strip_prefix('\'').and_then(|named| named.split_once(' ')).map_or(lent, |(_, lent)| lent);
    let (constant, list) = match lent.strip_prefix("mut ") {
        Some(list) => ("", list),
        None => ("const ", lent),
    };
    let list = list.trim_start_matches('[').trim_end_matches(']');
    match list.split_once(';') {
        Some((element, length)) => format!("{constant}{}[{}]", number(element), length.trim()),
        None => format!("{constant}{} *, size_t", number(list)),
    }
}

fn from_rust(kind: &str) -> String {
    let constant = kind.strip_prefix("*const ").map(|element| format!("const {} *", number(element)));
    let pointer = || kind.strip_prefix("*mut ").map(|element| format!("{} *", number(element)));
    constant.or_else(pointer).unwrap_or_else(|| number(kind).to_string())
}

fn number(kind: &str) -> &str {
    match kind.trim() {
        "u8" => "uint8_t",
        "u16" => "uint16_t",
        "u32" => "uint32_t",
        "u64" => "uint64_t",
        "usize" => "size_t",
        "i64" => "int64_t",
        "f64" => "double",
        other => other,
    }
}

/// `type name(type name, type name[count], ..)`.
fn c_function(declaration: &str) -> Option<(String, String)> {
    let (before, parameters) = declaration.split_once('(')?;
    let (answer, name) = before.trim().rsplit_once(|c: char| !is_word(c))?;
    let parameters = parameters.split(')').next()?.split(',').map(c_parameter);
    let parameters: Vec<String> = parameters.filter(|kind| !kind.is_empty() && kind != "void").collect();
    Some((name.to_string(), format!("{}({})", answer.trim(), parameters.join(", "))))
}

/// A parameter's type: what is left without its name. An array keeps its length.
fn c_parameter(parameter: &str) -> String {
    let (named, length) = match parameter.split_once('[') {
        Some((named, length)) => (named.trim(), length.strip_suffix(']').map(str::trim)),
        None => (parameter.trim(), None),
    };
    let kind = named.trim_end_matches(is_word).trim();
    match (kind, length) {
        ("", _) => named.to_string(),
        (kind, Some(length)) => format!("{kind}[{length}]"),
        (kind, None) => kind.to_string(),
    }
}

fn is_word(c: char) -> bool {
    c.is_ascii_alphanumeric() || c == '_'
}

/// Without `// ..` and `/* .. */`.
fn without_comments(source: &str) -> String {
    let mut text = String::new();
    let mut rest = source;
    while let Some(at) = rest.find("/*") {
        text += &rest[..at];
        rest = rest[at..].split_once("*/").map_or("", |(_, rest)| rest);
    }
    text += rest;
    text.lines().map(|line| line.split("//").next().unwrap_or_default()).collect::<Vec<_>>().join("\n")
}
