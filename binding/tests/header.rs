//! What src/calls.rs, src/recent.rs and src/reason.rs declare and src/limits.rs names is what
//! include/hrt.h says.

use hrt::limits::*;
use hrt::{Reason, Recent};

const HEADER: &str = include_str!("../../include/hrt.h");
const CALLS: &str = include_str!("../src/calls.rs");
const RECENT: &str = include_str!("../src/recent.rs");

/// The header's macros that decode an answer; all others are reasons or limits.
const DECODINGS: [&str; 5] = [
    "HRT_IS_REFUSED(answer)",
    "HRT_NUMBER(answer)",
    "HRT_PLACE(answer)",
    "HRT_WINDOW_IS_REFUSED(answer)",
    "HRT_WINDOW_NUMBER(answer)",
];

/// What the names of the header's reasons begin with.
const REASON: &str = "HRT_REASON_";

/// The limits as the header would define them by the binding's.
fn limits() -> Vec<(&'static str, String)> {
    let router = 2 * REGISTER_WORDS;
    let grid = "(size_t)(sx) * (size_t)(sy)";
    let size = "HRT_MOST_SIZE * HRT_MOST_SIZE";
    vec![
        ("HRT_MOST_PLAN_BYTES", MOST_PLAN_BYTES.to_string()),
        ("HRT_MOST_SIZE", MOST_SIDE.to_string()),
        ("HRT_MOST_FLOWS", MOST_FLOWS.to_string()),
        ("HRT_MOST_PERIOD", MOST_PERIOD.to_string()),
        ("HRT_MOST_BURST", MOST_BURST.to_string()),
        ("HRT_MOST_WAITING", MOST_WAITING.to_string()),
        ("HRT_MOST_TRIAL", MOST_TRIAL.to_string()),
        ("HRT_LAST_CLOCK", format!("{LAST_CLOCK}u")),
        ("HRT_MOST_RECENT", MOST_RECENT.to_string()),
        (
            "HRT_STATE_WORDS(flows, sx, sy)",
            format!("((size_t){HEAD_WORDS} + {FLOW_WORDS} * (size_t)(flows) + {router} * {grid})"),
        ),
        ("HRT_DELIVERY_WORDS(sx, sy)", format!("({EXIT_WORDS} * {grid})")),
        (
            "HRT_MOST_STATE_WORDS",
            format!("({HEAD_WORDS} + {FLOW_WORDS} * HRT_MOST_FLOWS + {router} * {size})"),
        ),
        ("HRT_MOST_DELIVERY_WORDS", format!("({EXIT_WORDS} * {size})")),
    ]
}

#[test]
fn functions_are_the_headers() {
    let (header, binding) = (functions_of_header(), functions_of_binding());
    for (header, binding) in header.iter().zip(&binding) {
        assert_eq!(
            header, binding,
            "include/hrt.h is on the left, binding/src/calls.rs on the right"
        );
    }
    assert_eq!(header.len(), binding.len(), "functions of include/hrt.h and binding/src/calls.rs");
}

#[test]
fn limits_are_the_headers() {
    let limits = limits();
    let mut found = macros();
    found.retain(|(name, _)| !DECODINGS.contains(&name.as_str()) && !name.starts_with(REASON));
    for ((name, text), (limit, expected)) in found.iter().zip(&limits) {
        let found = (name.as_str(), text);
        assert_eq!(
            found,
            (*limit, expected),
            "include/hrt.h is on the left, binding/ on the right"
        );
    }
    assert_eq!(found.len(), limits.len(), "limits of include/hrt.h and binding/src/limits.rs");
}

#[test]
fn reasons_are_the_headers() {
    let mut found = macros();
    found.retain(|(name, _)| name.starts_with(REASON));
    let expected = Reason::ALL.map(|reason| (in_capitals(reason), (reason as u32).to_string()));
    assert_eq!(found, expected, "include/hrt.h is on the left, binding/src/reason.rs on the right");
}

/// The name that the header has for a reason: `HRT_REASON_NO_TOKEN` for `NoToken`.
fn in_capitals(reason: Reason) -> String {
    let mut name = REASON.to_string();
    for (at, letter) in format!("{reason:?}").char_indices() {
        if at > 0 && letter.is_uppercase() {
            name.push('_');
        }
        name.push(letter.to_ascii_uppercase());
    }
    name
}

#[test]
fn the_record_is_the_headers() {
    assert_eq!(
        fields_of_header(),
        fields_of_binding(),
        "include/hrt.h is on the left, binding/src/recent.rs on the right"
    );
    assert_eq!((size_of::<Recent>(), align_of::<Recent>()), (35 * size_of::<u32>(), 4));
}

/// The header without its comments.
fn header() -> String {
    let mut code = String::new();
    for part in HEADER.split("/*") {
        code += part.split_once("*/").map_or(part, |(_, code)| code);
    }
    code
}

/// The header's macros with a text: name with arguments, and text.
fn macros() -> Vec<(String, String)> {
    let text = |line: &str| {
        let line = line.strip_prefix("#define ")?;
        let open = line.find('(').filter(|&at| !line[..at].contains(' '));
        let length = open.map_or_else(|| line.find(' '), |_| line.find(')').map(|at| at + 1))?;
        Some((line[..length].to_string(), line[length..].trim().to_string()))
    };
    header().lines().filter_map(text).collect()
}

/// What stands between the ends of the header's struct, and what stands around it.
fn record_apart(header: &str) -> (&str, String) {
    let (front, rest) = header.split_once("struct hrt_recent {").expect("there is the record");
    let (fields, back) = rest.split_once("};").expect("the record ends");
    (fields, format!("{front}{back}"))
}

/// The record's fields in Rust's words, in order.
fn fields_of_header() -> Vec<String> {
    let header = header();
    let (fields, _) = record_apart(&header);
    fields.split(';').map(str::trim).filter(|text| !text.is_empty()).map(field_in_rust).collect()
}

fn field_in_rust(declaration: &str) -> String {
    let Some((front, count)) = declaration.split_once('[') else {
        let (kind, name) = named(declaration);
        return format!("{name}: {kind}");
    };
    let (kind, name) = named(front);
    let count = count.strip_prefix("HRT_").and_then(|text| text.strip_suffix(']'));
    format!("{name}: [{kind}; {} as usize]", count.expect(declaration))
}

/// The binding's fields of the record, in order, which is that of C.
fn fields_of_binding() -> Vec<String> {
    let (front, code) = RECENT.split_once("pub struct Recent {").expect("there is the record");
    assert!(front.lines().any(|line| line == "#[repr(C)]"), "the record is laid out as in C");
    let (code, _) = code.split_once('}').expect("the record ends");
    let field = |line: &str| Some(line.trim().strip_prefix("pub ")?.strip_suffix(',')?.to_string());
    code.lines().filter_map(field).collect()
}

/// The header's functions in Rust's words, in order.
fn functions_of_header() -> Vec<String> {
    let header = header();
    let (_, code) = record_apart(&header);
    let is_code = |line: &&str| !line.starts_with('#') && !line.contains(['{', '}']);
    let code = code.lines().filter(is_code).collect::<Vec<_>>().join(" ");
    code.split_terminator(';').map(str::trim).filter(|text| !text.is_empty()).map(in_rust).collect()
}

fn in_rust(declaration: &str) -> String {
    let (front, arguments) = declaration.split_once('(').expect(declaration);
    let (result, name) = named(front);
    let arguments = arguments.strip_suffix(')').expect(declaration).split(',');
    let argument = |text: &str| {
        let (kind, name) = named(text);
        format!("{name}: {kind}")
    };
    let arguments = arguments.map(argument).collect::<Vec<_>>().join(", ");
    format!("{name}({arguments}) -> {result}")
}

/// The type in front of a name, in Rust's words, and the name.
fn named(text: &str) -> (&'static str, &str) {
    let start = text.rfind([' ', '*']).expect(text) + 1;
    let kind = match text[..start].split_whitespace().collect::<Vec<_>>()[..] {
        ["size_t"] => "usize",
        ["uint32_t"] => "u32",
        ["uint64_t"] => "u64",
        ["uint8_t", "*"] => "*mut u8",
        ["uint32_t", "*"] => "*mut u32",
        ["const", "uint8_t", "*"] => "*const u8",
        ["const", "uint32_t", "*"] => "*const u32",
        ["struct", "hrt_recent", "*"] => "*mut Recent",
        _ => panic!("no type is known for '{text}'"),
    };
    (kind, &text[start..])
}

/// The binding's functions, in order, each on one line.
fn functions_of_binding() -> Vec<String> {
    let (_, code) = CALLS.split_once("extern \"C\" {").expect("calls.rs declares functions");
    let (code, _) = code.split_once('}').expect("the declarations end");
    let line = |text: &str| {
        let words = text.split_whitespace().collect::<Vec<_>>().join(" ");
        let words = words.replace("( ", "(").replace(", )", ")");
        words.strip_prefix("pub fn ").expect(&words).to_string()
    };
    code.split(';').map(str::trim).filter(|text| !text.is_empty()).map(line).collect()
}
