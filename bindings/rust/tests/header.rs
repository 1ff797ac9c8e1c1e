//! The crate's texts against include/riftkettle.h, so that neither can drift from the other.
use riftkettle::{Refusal, VERSION};

const HEADER: &str = include_str!("../../../include/riftkettle.h");
const FFI: &str = include_str!("../src/ffi.rs");
const LAYOUT: &str = include_str!("../src/layout.rs");

/// A function: its name, what it returns, and its parameters with their types, all as Rust writes them.
type Declared = (String, String, Vec<(String, String)>);

/// The text without what stands between `open` and `close`.
fn without(text: &str, open: &str, close: &str) -> String {
    let mut parts = text.split(open);
    let first = parts.next().unwrap().to_string();
    parts.fold(first, |kept, part| kept + part.split_once(close).unwrap().1)
}

fn rust_type(c: &str) -> &'static str {
    match c {
        "double" => "f64",
        "float" => "f32",
        "uint8_t" => "u8",
        "uint16_t" => "u16",
        "int32_t" => "i32",
        "uint32_t" => "u32",
        "int64_t" => "i64",
        "uint64_t" => "u64",
        "size_t" => "usize",
        _ => panic!("the type {c}"),
    }
}

/// `const double *numbers`, `size_t n`, `double pose[3]`.
fn c_parameter(text: &str) -> (String, String) {
    let (kind, text) = match text.trim().strip_prefix("const ") {
        Some(rest) => ("*const ", rest),
        None => ("*mut ", text.trim()),
    };
    let (of, name) = text.split_once(' ').unwrap();
    let of = rust_type(of);
    match (name.strip_prefix('*'), name.split_once('[')) {
        (Some(name), None) => (name.into(), format!("{kind}{of}")),
        (None, Some((name, length))) => (name.into(), format!("{kind}[{of}; {}]", length.strip_suffix(']').unwrap())),
        (None, None) => (name.into(), of.into()),
        _ => panic!("the parameter {text}"),
    }
}

fn c_prototypes() -> Vec<Declared> {
    let code = without(HEADER, "/*", "*/").replace("extern \"C\" {", "").replace('}', "");
    let code: Vec<&str> = code.lines().filter(|line| !line.starts_with('#')).collect();
    let code = code.join(" ");
    let (prototypes, rest) = code.rsplit_once(';').unwrap();
    assert_eq!(rest.trim(), "");
    prototypes
        .split(';')
        .map(|prototype| {
            let (head, parameters) = prototype.trim().strip_suffix(')').unwrap().split_once('(').unwrap();
            let (returned, name) = head.split_once(' ').unwrap();
            (name.into(), rust_type(returned).into(), parameters.split(',').map(c_parameter).collect())
        })
        .collect()
}

fn rust_declarations() -> Vec<Declared> {
    let code = FFI.split_once("unsafe extern \"C\" {").unwrap().1;
    let code = code.split_whitespace().collect::<Vec<_>>().join(" ");
    code.split("pub ")
        .skip(1)
        .map(|declaration| {
            let declaration = declaration.trim_end_matches('}').trim().strip_suffix(';').unwrap();
            let declaration = declaration.strip_prefix("safe ").unwrap_or(declaration).strip_prefix("fn ").unwrap();
            let (name, rest) = declaration.split_once('(').unwrap();
            let (parameters, returned) = rest.rsplit_once(") -> ").unwrap();
            let parameters = parameters.split(',').map(str::trim).filter(|p| !p.is_empty());
            let parameters = parameters.map(|p| p.split_once(": ").unwrap()).map(|(p, of)| (p.into(), of.into()));
            (name.into(), returned.into(), parameters.collect())
        })
        .collect()
}

#[test]
fn ffi_declares_the_prototypes_one_for_one() {
    let prototypes = c_prototypes();
    assert_eq!(prototypes.len(), without(HEADER, "/*", "*/").matches("riftkettle_").count());
    assert_eq!(rust_declarations(), prototypes);
}

#[test]
fn a_declaration_is_safe_where_nothing_is_lent() {
    for declaration in FFI.split("pub ").skip(1) {
        assert_eq!(declaration.starts_with("safe "), !declaration.contains('*'), "{declaration}");
    }
}

/// Each `#define` with a value: its name without the prefix, its value, and its comment.
fn defines() -> Vec<(&'static str, &'static str, &'static str)> {
    let lines = HEADER.lines().filter_map(|line| line.strip_prefix("#define RIFTKETTLE_"));
    lines
        .filter_map(|line| line.split_once(' '))
        .map(|(name, rest)| {
            let (value, comment) = rest.split_once("/*").unwrap_or((rest, ""));
            (name, value.trim(), comment.trim().trim_end_matches("*/").trim())
        })
        .collect()
}

#[test]
fn layout_has_the_constants_one_for_one() {
    let constants = LAYOUT.lines().filter_map(|line| line.strip_prefix("pub const ")).map(|line| {
        let (name, rest) = line.split_once(": ").unwrap();
        (name, rest.split_once(" = ").unwrap().1.strip_suffix(';').unwrap())
    });
    let defined = defines().into_iter().filter(|(name, ..)| !name.starts_with("REFUSED_")).map(|(name, value, _)| (name, value));
    assert_eq!(constants.collect::<Vec<_>>(), defined.collect::<Vec<_>>());
}

#[test]
fn refusals_have_the_numbers_and_words() {
    let refused: Vec<_> =
        defines().into_iter().filter_map(|(n, v, words)| Some((n.strip_prefix("REFUSED_")?, v, words))).collect();
    assert_eq!(refused.len(), Refusal::ALL.len());
    for ((name, number, words), &refusal) in refused.into_iter().zip(Refusal::ALL) {
        assert_eq!(format!("{refusal:?}").to_uppercase(), name.replace('_', ""));
        assert_eq!(refusal.to_string(), format!("{words} (refusal {number})"));
        assert_eq!(Refusal::from_number(number.parse().unwrap()), Some(refusal));
        assert_eq!(refusal.number().to_string(), number);
    }
    assert_eq!([0, 18, u32::MAX].map(Refusal::from_number), [None; 3]);
}

#[test]
fn the_version_is_one() {
    assert_eq!(VERSION, env!("CARGO_PKG_VERSION"));
    use riftkettle::layout::{VERSION_MAJOR, VERSION_MINOR, VERSION_PATCH};
    assert_eq!(VERSION, format!("{VERSION_MAJOR}.{VERSION_MINOR}.{VERSION_PATCH}"));
}
