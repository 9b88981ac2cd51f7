//! The exported functions as the library's sources, the header and `sys` declare them: the same
//! names, parameters, types and array lengths. And the header's numbers and texts beside the
//! crate's, its lists of refusals beside the frozen cases (`oracle/README.md` has their form).

use haspeljo::{Error, MessageCode, Verdict};
use std::collections::{BTreeMap, BTreeSet, HashSet};
use std::fmt;
use std::fs;
use std::path::Path;

/// A declaration in the terms of `sys`. A function without a result has an empty one.
#[derive(Debug, PartialEq, Eq, PartialOrd, Ord)]
struct Function {
    name: String,
    parameters: Vec<(String, String)>,
    result: String,
}

fn read(path: &str) -> String {
    let path = Path::new(env!("CARGO_MANIFEST_DIR")).join(path);
    fs::read_to_string(&path).unwrap_or_else(|error| panic!("{}: {error}", path.display()))
}

/// What stands between the first `open` and the next `close`, with what stands before and after.
fn around<'a>(text: &'a str, open: &str, close: &str) -> Option<(&'a str, &'a str, &'a str)> {
    let (before, rest) = text.split_once(open)?;
    let (within, after) = rest.split_once(close)?;
    Some((before, within, after))
}

fn list(text: &str) -> impl Iterator<Item = &str> {
    text.split(',').map(str::trim).filter(|item| !item.is_empty())
}

/// `name(name: type, ..) -> type` followed by anything, with each parameter as `parameter` has it.
fn rust_function(
    text: &str,
    parameter: impl Fn(usize, &str, &str) -> Vec<(String, String)>,
) -> Function {
    let (name, parameters, rest) = around(text, "(", ")").expect("parameters");
    let mut all = vec![];
    for (i, item) in list(parameters).enumerate() {
        let (name, kind) = item.split_once(": ").expect("a name and a type");
        all.extend(parameter(i, name, kind));
    }
    let result = rest.strip_prefix(" -> ").map_or("", |rest| word(rest));
    Function { name: name.into(), parameters: all, result: result.into() }
}

fn word(text: &str) -> &str {
    text.split(|c: char| !c.is_alphanumeric()).next().unwrap_or("")
}

/// Those of `sys`, in its order.
fn in_sys() -> Vec<Function> {
    let text = read("sys/src/lib.rs");
    let same = |_, name: &str, kind: &str| vec![(name.into(), kind.into())];
    text.split("pub fn ").skip(1).map(|text| rust_function(text, same)).collect()
}

/// Those of the library's sources, by name. A slice becomes a pointer and a length, which is `n` for
/// the first parameter.
fn in_library() -> Vec<Function> {
    let folder = Path::new(env!("CARGO_MANIFEST_DIR")).join("../crates/haspeljo_c/src");
    let mut all = vec![];
    for file in fs::read_dir(folder).expect("the library's sources") {
        let text = fs::read_to_string(file.unwrap().path()).unwrap();
        let found = text.split("\n#[unsafe(no_mangle)]\npub extern \"C\" fn ").skip(1);
        all.extend(found.map(|text| rust_function(text, library_parameter)));
        assert_eq!(text.matches("no_mangle").count(), text.matches("extern \"C\"").count());
    }
    all.sort();
    all
}

fn library_parameter(i: usize, name: &str, kind: &str) -> Vec<(String, String)> {
    let length = if i == 0 { "n".into() } else { format!("{name}_n") };
    let slice = |pointer: &str, of: &str| {
        vec![(name.into(), format!("{pointer} {of}")), (length.clone(), "usize".into())]
    };
    if let Some(("", of, "")) = around(kind, "&[", "]") {
        return slice("*const", of);
    }
    match around(kind, "&mut [", "]") {
        Some(("", of, "")) if of.contains(';') => vec![(name.into(), format!("*mut [{of}]"))],
        Some(("", of, "")) => slice("*mut", of),
        _ => vec![(name.into(), kind.into())],
    }
}

/// The header without comments and lines for the preprocessor.
fn header() -> String {
    let mut text = read("include/haspeljo.h");
    while let Some((before, _, after)) = around(&text, "/*", "*/") {
        text = format!("{before}{after}");
    }
    text.lines().filter(|line| !line.starts_with('#')).collect::<Vec<_>>().join("\n")
}

/// The constants of each `enum`, in its order.
fn enums() -> Vec<Vec<(String, u64)>> {
    let text = header();
    let constant = |item: &str| {
        let (name, number) = item.split_once(" = ").expect("a constant with its number");
        (name.to_string(), number.parse().expect("a number"))
    };
    let blocks = text.split("enum {").skip(1).map(|text| text.split_once('}').unwrap().0);
    blocks.map(|block| list(block).map(constant).collect()).collect()
}

fn constants() -> BTreeMap<String, u64> {
    let all = enums().concat();
    let count = all.len();
    let constants: BTreeMap<_, _> = all.into_iter().collect();
    assert_eq!(constants.len(), count, "a name occurs twice");
    constants
}

/// The declarations of the header, in its order: statements that end with a parenthesis.
fn prototypes() -> Vec<String> {
    let text = header();
    let statements = text.split(';').filter(|text| text.trim_end().ends_with(')'));
    statements.map(|text| text.rsplit(['{', '}']).next().unwrap().trim().into()).collect()
}

fn in_header() -> Vec<Function> {
    let constants = constants();
    prototypes().iter().map(|text| c_function(text, &constants)).collect()
}

fn c_function(text: &str, constants: &BTreeMap<String, u64>) -> Function {
    let (start, parameters, _) = around(text, "(", ")").expect("parameters");
    let (result, name) = start.rsplit_once(' ').expect("a result and a name");
    let parameters = list(parameters).map(|item| c_parameter(item, constants)).collect();
    let result = if result == "void" { "".into() } else { scalar(result) };
    Function { name: name.into(), parameters, result }
}

fn c_parameter(item: &str, constants: &BTreeMap<String, u64>) -> (String, String) {
    let (kind, name) = item.rsplit_once(' ').expect("a type and a name");
    if let Some((name, length, "")) = around(name, "[", "]") {
        return (name.into(), format!("*mut [{}; {}]", scalar(kind), constants[length]));
    }
    let Some(name) = name.strip_prefix('*') else { return (name.into(), scalar(kind)) };
    match kind.strip_prefix("const ") {
        Some(kind) => (name.into(), format!("*const {}", scalar(kind))),
        None => (name.into(), format!("*mut {}", scalar(kind))),
    }
}

fn scalar(kind: &str) -> String {
    match kind {
        "size_t" => "usize".into(),
        _ => {
            let bits = kind.strip_suffix("_t").expect("a type of stdint.h");
            bits.replace("uint", "u").replace("int", "i")
        }
    }
}

fn compare(left: &[Function], right: &[Function]) {
    for (left, right) in left.iter().zip(right) {
        assert_eq!(left, right);
    }
    assert_eq!(left.len(), right.len());
}

#[test]
fn header_and_sys() {
    compare(&in_header(), &in_sys());
}

#[test]
fn library_and_header() {
    let (library, mut header) = (in_library(), in_header());
    header.sort();
    compare(&library, &header);
    assert!(library.iter().any(|function| function.name == "haspeljo_step"));
}

/// `LongVlq` is `HASPELJO_LONG_VLQ`.
fn name_of(variant: impl fmt::Debug) -> String {
    let mut name = "HASPELJO".to_string();
    for c in format!("{variant:?}").chars() {
        if c.is_uppercase() {
            name.push('_');
        }
        name.push(c.to_ascii_uppercase());
    }
    name
}

#[test]
fn refusals_and_verdicts() {
    let verdicts = (0..=u8::MAX).filter_map(|number| Verdict::try_from(number).ok());
    let verdicts: Vec<(String, u64)> =
        verdicts.map(|verdict| (name_of(verdict), verdict.number().into())).collect();
    let refusals: Vec<(String, u64)> =
        Error::ALL.iter().map(|error| (name_of(error), error.number().into())).collect();
    let enums = enums();
    assert!(enums.contains(&refusals), "{refusals:?}");
    assert!(enums.contains(&verdicts), "{verdicts:?}");
}

#[test]
fn codes() {
    let constants = constants();
    let codes = [
        ("HASPELJO_GET_PEERS", MessageCode::GET_PEERS),
        ("HASPELJO_PEERS", MessageCode::PEERS),
        ("HASPELJO_MODIFIER_REQUEST", MessageCode::MODIFIER_REQUEST),
        ("HASPELJO_MODIFIER_RESPONSE", MessageCode::MODIFIER_RESPONSE),
        ("HASPELJO_INV", MessageCode::INV),
        ("HASPELJO_SYNC_INFO", MessageCode::SYNC_INFO),
    ];
    for (name, code) in codes {
        assert_eq!(constants[name], code.into(), "{name}");
    }
}

#[test]
fn texts() {
    let (text, readme) = (header(), read("../README.md"));
    let case = |case| around(case, ": return \"", "\";").expect("a sentence");
    let said = text.split("case HASPELJO_").skip(1).map(case);
    let said: Vec<_> =
        said.map(|(name, text, _)| (format!("HASPELJO_{name}"), text.into())).collect();
    let sentences: Vec<_> =
        Error::ALL.iter().map(|error| (name_of(error), error.to_string())).collect();
    assert_eq!(said, sentences);
    for error in Error::ALL {
        let row = format!("\n| {} | {error} | ", error.number());
        assert!(readme.contains(&row), "README.md: {row}");
    }
}

/// The functions that fill each array, by the name of its length.
const ARRAYS: [(&str, &str); 16] = [
    ("READ_LENGTH", "read_byte read_vlq read_vlq_length"),
    ("PART_LENGTH", "read_short_string read_part"),
    ("DIGEST_BYTES", "blake2b256"),
    ("CHECK_BYTES", "frame_check"),
    ("ENTRY_LENGTH", "parse parse_peer_entry entry_by_index entry_in_stream"),
    ("SIZE_LENGTH", "measure_size"),
    ("FEATURE_LENGTH", "read_feature feature_by_index"),
    ("VERDICT_LENGTH", "validate_peer validate_entry"),
    ("URL_LENGTH", "rest_api_url"),
    ("FRAME_LENGTH", "decode"),
    ("MESSAGE_LENGTH", "from_frame parse_peers_body"),
    ("ID_LENGTH", "id_by_index id_in_stream"),
    ("READ_PAYLOAD_LENGTH", "read_payload"),
    ("PAYLOAD_LENGTH", "payload_by_index payload_in_stream"),
    ("STEP_LENGTH", "step"),
    (
        "WRITTEN_LENGTH",
        "write_vlq write_short_string write_part write_entry write_handshake build encode \
         write_get_peers write_peers write_modifier_request write_modifier_response write_inv \
         write_sync_info write_unknown",
    ),
];

/// Each function names the length of the array that it fills, not another with the same number.
#[test]
fn arrays() {
    let expected: BTreeSet<(String, String)> = ARRAYS
        .iter()
        .flat_map(|(length, names)| names.split(' ').map(move |name| (name, length)))
        .map(|(name, length)| (format!("haspeljo_{name}"), format!("HASPELJO_{length}")))
        .collect();
    let mut named = BTreeSet::new();
    for text in prototypes() {
        let Some((_, length, _)) = around(&text, "[", "]") else { continue };
        let (start, _) = text.split_once('(').expect("parameters");
        named.insert((start.rsplit(' ').next().unwrap().to_string(), length.to_string()));
    }
    assert_eq!(named, expected);
}

#[test]
fn bytes() {
    let bytes = [
        ("HASPELJO_DIGEST_BYTES", 32),
        ("HASPELJO_CHECK_BYTES", 4),
        ("HASPELJO_MODIFIER_ID_BYTES", 32),
    ];
    let bytes = bytes.map(|(name, number)| (name.to_string(), number)).to_vec();
    assert!(enums().contains(&bytes));
}

/// An `enum` of slots ends with their number and names all of them, in order. In a step two kinds
/// have names for slot 2 and three for slot 3: `slots.c` uses each.
#[test]
fn slots() {
    let enums = enums();
    let arrays: Vec<_> =
        enums.iter().filter(|slots| slots[slots.len() - 1].0.ends_with("_LENGTH")).collect();
    for slots in &arrays {
        let numbers: Vec<u64> = slots.iter().map(|slot| slot.1).collect();
        let mut expected: Vec<u64> = (0..=numbers[numbers.len() - 1]).collect();
        if slots[0].0 == "HASPELJO_STEP_KIND" {
            expected.extend([2, 3, 3]);
            expected.sort();
        }
        assert_eq!(numbers, expected, "{slots:?}");
    }
    assert_eq!(arrays.len(), 18);
}

/// The numbers that each function's comment in the header lists, as `Refuses 12, 1 to 4.`
fn listed() -> BTreeMap<String, BTreeSet<u8>> {
    let text = read("include/haspeljo.h").replace("\n * ", " ");
    let numbers = |item: &str| {
        let (first, last) = item.split_once(" to ").unwrap_or((item, item));
        first.parse().expect(item)..=last.parse().expect(item)
    };
    let list = |function: Function| {
        let (before, _) = text.split_once(&format!(" {}(", function.name)).unwrap();
        let comment = before.rsplit("/*").next().unwrap();
        let list = comment.split_once("Refuses ").map_or("nothing", |(_, list)| list);
        let list = list.split(['.', ':']).next().unwrap();
        let items = list.split(", ").filter(|item| *item != "nothing");
        (function.name, items.flat_map(numbers).collect())
    };
    in_header().into_iter().map(list).collect()
}

/// The names of the functions of frozen cases, by number.
fn frozen_names() -> BTreeMap<u8, String> {
    let text = read("../oracle/README.md");
    let rows = text.lines().filter_map(|line| around(line.strip_prefix("| ")?, " | `", "` |"));
    rows.filter_map(|(number, name, _)| Some((number.parse().ok()?, format!("haspeljo_{name}"))))
        .collect()
}

/// The refusals of writers that take more than 16,388,608 bytes: no frozen case has them.
const LONG: [(u8, &str); 2] = [
    (3, "write_entry write_handshake write_peers write_modifier_response"),
    (7, "encode write_peers write_modifier_response write_sync_info write_unknown"),
];

/// The numbers with which each function refuses frozen cases.
fn frozen() -> BTreeMap<String, BTreeSet<u8>> {
    let path = Path::new(env!("CARGO_MANIFEST_DIR")).join("../crates/export_replay/stdin");
    let (cases, names) = (fs::read(path).unwrap(), frozen_names());
    let (mut rest, mut all) = (&cases[..], BTreeMap::<_, BTreeSet<u8>>::new());
    for line in read("../crates/export_replay/stdout").lines() {
        let [function, low, high, input @ ..] = rest else { panic!("a case for {line}") };
        rest = &input[u16::from_le_bytes([*low, *high]).into()..];
        let number = line.split(' ').nth(1).and_then(|number| number.parse::<u8>().ok());
        let numbers = all.entry(names[function].clone()).or_default();
        numbers.extend(number.filter(|number| *number != 0));
    }
    assert!(rest.is_empty());
    all
}

/// The header lists the refusals of the frozen cases and of `LONG`, and no others.
#[test]
fn refused() {
    let (listed, mut refused) = (listed(), frozen());
    for (number, names) in LONG {
        for name in names.split(' ') {
            refused.get_mut(&format!("haspeljo_{name}")).expect(name).insert(number);
        }
    }
    for Function { name, parameters, .. } in in_header() {
        let can_refuse = parameters.iter().any(|(_, kind)| kind.starts_with("*mut [u64"));
        let numbers = if can_refuse { refused.remove(&name) } else { Some(BTreeSet::new()) };
        assert_eq!(Some(&listed[&name]), numbers.as_ref(), "{name}");
    }
}

/// Every function that takes a slice is called in `nulls.c`, every slot and column used in `slots.c`.
#[test]
fn all_are_in_the_tests_in_c() {
    let is_slice = |kind: &str| kind.starts_with('*') && !kind.contains('[');
    let nulls = read("tests/nulls.c");
    for function in in_header() {
        if function.parameters.iter().any(|(_, kind)| is_slice(kind)) {
            assert!(nulls.contains(&format!("{}(", function.name)), "{}", function.name);
        }
    }
    let is_slots = |slots: &Vec<(String, u64)>| {
        let last = &slots[slots.len() - 1].0;
        last.starts_with("HASPELJO_STEP_") || last.ends_with("_LENGTH") || last.ends_with("_BYTES")
    };
    let slots = read("tests/slots.c");
    let words: HashSet<&str> = slots.split(|c: char| !c.is_alphanumeric() && c != '_').collect();
    for (name, _) in enums().into_iter().filter(is_slots).flatten() {
        assert!(words.contains(&*name), "{name}");
    }
}

#[test]
fn version() {
    let text = read("include/haspeljo.h");
    let defined = |name: &str| around(&text, &format!("#define {name} "), "\n").expect(name).1;
    let [major, minor, patch] =
        ["MAJOR", "MINOR", "PATCH"].map(|part| defined(&format!("HASPELJO_VERSION_{part}")));
    let version = env!("CARGO_PKG_VERSION");
    assert_eq!(format!("{major}.{minor}.{patch}"), version);
    assert_eq!(defined("HASPELJO_VERSION"), format!("\"{version}\""));
    for manifest in ["sys/Cargo.toml", "../cli/Cargo.toml"] {
        assert!(read(manifest).contains(&format!("\nversion = \"{version}\"\n")), "{manifest}");
    }
}
