//! What crosses the boundary, read off a text: exported functions and the structs that they pass. The Rattle source, the Rust declarations and the C
//! header are each read into the same terms, those of Rust.

use std::collections::{BTreeMap, BTreeSet};
use std::fs;
use std::path::{Path, PathBuf};

/// A function's parameters, `name: type`, and its result.
#[derive(Debug, PartialEq, Eq)]
pub struct Signature {
    pub parameters: Vec<String>,
    pub result: String,
}

pub type Functions = BTreeMap<String, Signature>;

/// A struct's fields in order, `name: type`.
pub type Structs = BTreeMap<String, Vec<String>>;

/// The crates whose functions are exported.
pub const EXPORTING: [&str; 4] = ["plugin", "exports", "exports_views", "sizes"];

pub fn host() -> &'static Path {
    Path::new(env!("CARGO_MANIFEST_DIR"))
}

pub fn crates() -> PathBuf {
    host().join("../crates")
}

pub fn files(folder: &Path, ending: &str) -> Vec<PathBuf> {
    let mut found = vec![];
    for entry in fs::read_dir(folder).unwrap().flatten() {
        let path = entry.path();
        if path.is_dir() {
            found.extend(files(&path, ending));
        } else if path.to_string_lossy().ends_with(ending) {
            found.push(path);
        }
    }
    found
}

/// The text of a file without its comments, in one line.
pub fn code(file: &Path) -> String {
    let text = fs::read_to_string(file).unwrap_or_else(|why| panic!("{}: {why}", file.display()));
    let lines = text.lines().map(|line| line.split("//").next().unwrap_or(""));
    lines.flat_map(str::split_whitespace).collect::<Vec<_>>().join(" ")
}

/// What follows each place where a word stands, with what goes before it.
pub fn after<'a>(text: &'a str, word: &'a str) -> impl Iterator<Item = (&'a str, &'a str)> {
    text.match_indices(word)
        .map(move |(at, word)| (&text[..at], &text[at + word.len()..]))
}

/// Comma-separated `name: type`, the type as it stands.
fn pairs(text: &str) -> Vec<(String, String)> {
    text.split(',')
        .filter_map(|item| item.split_once(':'))
        .map(|(name, of)| (name.trim().replace("pub ", ""), of.trim().to_string()))
        .collect()
}

/// `NAME(PARAMETERS) -> RESULT` at the start of a text.
fn signature(text: &str) -> (String, Vec<(String, String)>, String) {
    let (name, rest) = text.split_once('(').unwrap();
    let name = name.split('<').next().unwrap().trim();
    let (parameters, rest) = rest.split_once(')').unwrap();
    let result = rest.trim_start().strip_prefix("->").unwrap_or("").trim_start();
    let result = result.split([' ', ';']).next().unwrap();
    (name.to_string(), pairs(parameters), result.to_string())
}

/// A slice is a pointer and a count; numbers and structs are themselves.
fn as_words(name: &str, of: &str) -> Vec<String> {
    let of = of.replace("'a ", "");
    let slice = |kind: &str| Some(of.strip_prefix(kind)?.strip_suffix(']')?.to_string());
    if let Some(item) = slice("&[") {
        vec![format!("{name}: *const {item}"), format!("{name}_len: usize")]
    } else if let Some(item) = slice("&mut [") {
        vec![format!("{name}: *mut {item}"), format!("{name}_len: usize")]
    } else {
        assert!(!of.contains('&'), "{name}: {of}");
        vec![format!("{name}: {of}")]
    }
}

// ---- The Rattle source

/// What the calls of the library export.
pub fn exported() -> Functions {
    exported_by(&EXPORTING)
}

pub fn exported_by(names: &[&str]) -> Functions {
    let mut found = Functions::new();
    for file in names
        .iter()
        .flat_map(|name| files(&crates().join(name).join("src"), ".rt"))
    {
        for (before, text) in after(&code(&file), "pub extern \"C\" fn ") {
            let (name, parameters, result) = signature(text);
            assert!(
                before.ends_with("#[unsafe(no_mangle)] "),
                "{name} is not exported by its name"
            );
            assert!(name.starts_with("giellavor_"), "{name} lacks the library's prefix");
            let parameters = parameters
                .iter()
                .flat_map(|(name, of)| as_words(given(name), of))
                .collect();
            assert!(found.insert(name, Signature { parameters, result }).is_none());
        }
    }
    found
}

/// A parameter's name to a caller: whether the function writes over its own copy is nothing to him. In Rattle `result` is what a function returns, so there a
/// parameter of that name is called `res`.
fn given(name: &str) -> &str {
    let name = name.strip_prefix("mut ").unwrap_or(name);
    if name == "res" { "result" } else { name }
}

/// The structs of one text, by what stands before each.
fn structs_of(text: &str) -> impl Iterator<Item = (&str, String, Vec<String>)> {
    after(text, "pub struct ").map(|(before, text)| {
        let (name, rest) = text.split_once('{').unwrap();
        let (fields, _) = rest.split_once('}').unwrap();
        let fields = pairs(fields).into_iter().map(|(name, of)| format!("{name}: {of}"));
        (before, name.trim().to_string(), fields.collect())
    })
}

/// The exporting crates and those that they use, by the list of crates.
fn reached() -> BTreeSet<String> {
    let list = fs::read_to_string(host().join("../crates.txt")).unwrap();
    let lines = list.lines().filter_map(|line| line.split_once(':'));
    let uses: BTreeMap<&str, &str> = lines
        .map(|(head, uses)| (head.split(' ').next().unwrap(), uses))
        .collect();
    let mut found = BTreeSet::new();
    let mut open = EXPORTING.to_vec();
    while let Some(name) = open.pop() {
        if found.insert(name.to_string()) {
            open.extend(uses[name].split_whitespace());
        }
    }
    found
}

/// Every struct that an exported function passes, itself or within another. Each is laid out as C lays it out.
pub fn laid_out() -> Structs {
    let mut all = BTreeMap::new();
    let sources = reached().into_iter().map(|name| crates().join(name).join("src"));
    for file in sources.flat_map(|at| files(&at, ".rt")) {
        for (before, name, fields) in structs_of(&code(&file)) {
            let c = before.ends_with("#[repr(C)] #[derive(Clone, Copy)] ");
            all.entry(name).or_insert_with(Vec::new).push((c, fields));
        }
    }
    let signatures = exported().into_values();
    let mut open: Vec<String> = signatures
        .flat_map(|of| of.parameters.into_iter().chain([of.result]))
        .collect();
    let mut found = Structs::new();
    while let Some(text) = open.pop() {
        // `links: [Link; LINKS]` names Link.
        let words = text.rsplit(": ").next().unwrap().split(|c: char| !c.is_alphanumeric());
        for name in words
            .filter(|word| all.contains_key(*word) && !found.contains_key(*word))
            .collect::<Vec<_>>()
        {
            let [(true, fields)] = &all[name][..] else {
                panic!("{name} stands twice, or is not laid out as in C")
            };
            open.extend(fields.clone());
            found.insert(name.to_string(), fields.clone());
        }
    }
    found
}

/// The sizes of an arm, `NAME = value`, as the source defines them.
pub fn limits() -> BTreeMap<String, usize> {
    let mut found = BTreeMap::new();
    for (_, text) in after(&code(&crates().join("limits/src/lib.rt")), "pub const ") {
        let (name, rest) = text.split_once(": usize = ").unwrap();
        let (value, _) = rest.split_once(';').unwrap();
        let factors = value.split('*').map(str::trim);
        let value = factors.map(|factor| factor.parse().unwrap_or_else(|_| found[factor]));
        let value = value.product();
        found.insert(name.to_string(), value);
    }
    found
}

/// The size of each struct by C's rules: a field stands at the next multiple of its alignment, and the struct ends at the next multiple of the largest.
pub fn sizes() -> BTreeMap<String, usize> {
    let (structs, limits) = (laid_out(), limits());
    let size = |name: &String| (name.clone(), size_and_alignment(name, &structs, &limits).0);
    structs.keys().map(size).collect()
}

fn size_and_alignment(of: &str, structs: &Structs, limits: &BTreeMap<String, usize>) -> (usize, usize) {
    if let Some((item, count)) = of
        .strip_prefix('[')
        .and_then(|of| of.strip_suffix(']')?.split_once("; "))
    {
        let (size, alignment) = size_and_alignment(item, structs, limits);
        return (size * count.parse().unwrap_or_else(|_| limits[count]), alignment);
    }
    match of {
        "u8" => (1, 1),
        "u32" | "f32" => (4, 4),
        "usize" => (8, 8),
        _ => {
            let fields = structs[of].iter().map(|field| field.split_once(": ").unwrap().1);
            let (end, largest) = fields.fold((0usize, 1usize), |(end, largest), field| {
                let (size, alignment) = size_and_alignment(field, structs, limits);
                (end.next_multiple_of(alignment) + size, largest.max(alignment))
            });
            (end.next_multiple_of(largest), largest)
        }
    }
}

/// All that crosses, a line for each function, struct and limit.
pub fn crossing() -> String {
    let functions = exported()
        .into_iter()
        .map(|(name, of)| format!("{name}({}) -> {}\n", of.parameters.join(", "), of.result));
    let structs = laid_out()
        .into_iter()
        .map(|(name, fields)| format!("{name} {{ {} }}\n", fields.join(", ")));
    let limits = limits().into_iter().map(|(name, value)| format!("{name} = {value}\n"));
    functions.chain(structs).chain(limits).collect()
}

// ---- The Rust declarations

/// The calls, and what is timed beside them. In the lists of `exported!` an arm that crosses by value is lent, or edited in its place.
pub fn declared() -> [Functions; 2] {
    let text = code(&host().join("src/ffi.rs"));
    let (calls, timed) = text.split_once("mod timed").unwrap();
    let mut calls = declared_in(calls);
    calls.extend(asked(&code(&host().join("src/archive.rs"))));
    [calls, declared_in(timed)]
}

fn declared_in(text: &str) -> Functions {
    let lists = after(text, "exported! {").map(|(_, list)| list.split_once('}').unwrap().0);
    let items = lists.flat_map(|list| list.split(';')).map(str::trim);
    items.filter(|item| !item.is_empty()).map(declared_function).collect()
}

/// What is asked of an archive before its calls are run: numbers alone.
fn asked(text: &str) -> Functions {
    after(text, "pub safe fn ")
        .map(|(before, text)| {
            let (name, parameters, result) = signature(text);
            let name = format!("giellavor_{name}");
            assert!(before.ends_with(&format!("#[link_name = \"{name}\"] ")));
            let parameters = parameters.iter().flat_map(|(name, of)| as_words(name, of)).collect();
            (name, Signature { parameters, result })
        })
        .collect()
}

fn declared_function(item: &str) -> (String, Signature) {
    let item = match item.split_once("(edited: &mut Edited") {
        Some((name, rest)) => format!("{name}(arm: &Arm{rest} -> Edited"),
        None => item.to_string(),
    };
    let (name, parameters, result) = signature(item.strip_prefix("fn ").unwrap());
    let parameters = parameters
        .iter()
        .flat_map(|(name, of)| as_words(name, if of == "&Arm" { "Arm" } else { of }))
        .collect();
    (format!("giellavor_{name}"), Signature { parameters, result })
}

/// The names of the structs of `src/abi.rs`, in order.
pub fn declared_order() -> Vec<String> {
    let text = code(&host().join("src/abi.rs"));
    structs_of(&text).map(|(_, name, _)| name).collect()
}

pub fn declared_structs() -> Structs {
    let text = code(&host().join("src/abi.rs"));
    structs_of(&text)
        .map(|(before, name, fields)| {
            let (_, attributes) = before
                .rsplit_once("#[repr(C)] ")
                .unwrap_or_else(|| panic!("{name} is laid out anyhow"));
            assert!(
                attributes.starts_with("#[derive(") && attributes.ends_with(")] "),
                "{name}: {attributes}"
            );
            (name, fields)
        })
        .collect()
}

// ---- The C header

/// The folder that the header stands in.
pub fn include() -> PathBuf {
    host().join("../include")
}

/// The header up to the one function that it defines itself.
fn header() -> String {
    let text = fs::read_to_string(include().join("giellavor.h")).unwrap();
    let text = text.split("static inline").next().unwrap();
    let mut code = String::new();
    for (number, piece) in text.split("/*").enumerate() {
        code += if number == 0 {
            piece
        } else {
            piece.split_once("*/").unwrap().1
        };
    }
    code
}

/// The header without its comments and its lines for the preprocessor, in one line.
fn header_code() -> String {
    let lines = header();
    let lines = lines.lines().filter(|line| !line.starts_with('#'));
    lines.flat_map(str::split_whitespace).collect::<Vec<_>>().join(" ")
}

/// The names of the header's structs, in order.
pub fn header_order() -> Vec<String> {
    let text = header_code();
    after(&text, "typedef struct Giellavor")
        .map(|(_, text)| text.split(' ').next().unwrap().to_string())
        .collect()
}

/// The sizes that the header defines, and its version.
pub fn header_numbers() -> BTreeMap<String, usize> {
    header()
        .lines()
        .filter_map(|line| line.strip_prefix("#define GIELLAVOR_")?.split_once(' '))
        .map(|(name, value)| (name.to_string(), value.parse().unwrap()))
        .collect()
}

/// A type of C in Rust's terms.
fn as_rust(of: &str) -> String {
    match of {
        "uint8_t" => "u8",
        "uint32_t" => "u32",
        "size_t" => "usize",
        "float" => "f32",
        _ => of.strip_prefix("Giellavor").unwrap_or_else(|| panic!("{of}")),
    }
    .to_string()
}

/// `TYPE NAME`, `TYPE *NAME` or `TYPE NAME[SIZE]`, as `name: type`.
fn declaration(text: &str) -> String {
    let (of, name) = text.trim().rsplit_once(' ').unwrap();
    if let Some(name) = name.strip_prefix('*') {
        let (kind, of) = of.strip_prefix("const ").map_or(("mut", of), |of| ("const", of));
        return format!("{name}: *{kind} {}", as_rust(of));
    }
    match name.split_once('[') {
        Some((name, size)) => {
            let size = size.trim_end_matches(']').replace("GIELLAVOR_", "");
            format!("{name}: [{}; {size}]", as_rust(of))
        }
        None => format!("{name}: {}", as_rust(of)),
    }
}

pub fn header_structs() -> Structs {
    let text = header_code();
    after(&text, "typedef struct Giellavor")
        .map(|(_, text)| {
            let (name, rest) = text.split_once(" {").unwrap();
            let (fields, rest) = rest.split_once('}').unwrap();
            assert!(rest.starts_with(&format!(" Giellavor{name};")));
            let fields = fields.split(';').filter(|field| !field.trim().is_empty());
            (name.to_string(), fields.map(declaration).collect())
        })
        .collect()
}

pub fn header_functions() -> Functions {
    let text = header_code();
    let mut found = Functions::new();
    for (before, rest) in after(&text, " giellavor_") {
        let (name, rest) = rest.split_once('(').unwrap();
        let (parameters, _) = rest.split_once(");").unwrap();
        let result = before.rsplit([';', '}', '{']).next().unwrap().trim();
        let parameters = parameters
            .split(',')
            .filter(|&of| of != "void")
            .map(declaration)
            .collect();
        let signature = Signature {
            parameters,
            result: as_rust(result),
        };
        assert!(found.insert(format!("giellavor_{name}"), signature).is_none());
    }
    found
}
