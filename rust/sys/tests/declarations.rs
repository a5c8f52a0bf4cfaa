//! The Rust declarations say what the Rattle source says: nothing else checks one against the other.

use std::collections::BTreeMap;
use std::fs;
use std::path::Path;

const RATTLE: [&str; 3] = [
    "stranvek/src/bytes_range.rt",
    "stranvek/src/boundary.rt",
    "stranvek/src/transaction_manager.rt",
];
/// Where the room's answer is declared.
const ROOM_ANSWER: &str = "answers/src/lib.rt";
/// Where the key limit, the tags of the kinds and the tag of a list's keys are declared.
const NUMBERS: [&str; 3] = ["keys/src/lib.rt", "kinds/src/kind.rt", "fields/src/lib.rt"];
/// The range part's declarations and the manager's.
const RUST: [&str; 4] = [
    "sys/src/boundary.rs",
    "sys/src/answers.rs",
    "stranvek/src/boundary.rs",
    "stranvek/src/numbers.rs",
];

/// What is declared under a name: parameters or fields in order, then what comes back, each with its type.
type Declared = BTreeMap<String, Vec<(String, String)>>;

fn source(path: &str) -> String {
    let path = Path::new(env!("CARGO_MANIFEST_DIR")).join("../..").join(path);
    let text = fs::read_to_string(&path).unwrap_or_else(|e| panic!("{}: {}", path.display(), e));
    let code = |line: &str| line.split("//").next().expect("a line").to_string() + "\n";
    text.lines().map(code).collect()
}

/// The Rattle source without the names of lifetimes, which say nothing of how an argument is passed.
fn rattle() -> String {
    let files = RATTLE.iter().chain(&[ROOM_ANSWER]).chain(&NUMBERS);
    let text: String = files.map(|file| source(&format!("crates/{}", file))).collect();
    text.replace("<'a>", "").replace("&'a ", "&")
}

fn rust() -> String {
    RUST.iter().map(|file| source(&format!("rust/{}", file))).collect()
}

/// What stands before the first of some marks.
fn until<'a>(text: &'a str, marks: &[&str]) -> &'a str {
    let end = marks.iter().filter_map(|mark| text.find(mark)).min();
    &text[..end.expect("a mark")]
}

/// `a: u8, b: &[u8]` as pairs of a name and a type.
fn pairs(list: &str) -> Vec<(String, String)> {
    let parts = list.split(',').map(str::trim).filter(|part| !part.is_empty());
    let pair = |part: &str| {
        let (name, kind) = part.split_once(": ").expect("a name and a type");
        (name.trim_start_matches("pub ").to_string(), kind.trim().to_string())
    };
    parts.map(pair).collect()
}

/// The functions that are declared after each mark, up to the end of their signatures.
fn functions(text: &str, mark: &str, end: &[&str]) -> Declared {
    let mut all = Declared::new();
    for found in text.split(mark).skip(1) {
        let name = until(found, &["("]);
        let signature = until(&found[name.len()..], end);
        let (list, back) = signature.split_once(") -> ").expect("what comes back");
        let mut declared = pairs(&list[1..]);
        declared.push(("->".to_string(), back.trim().to_string()));
        let before = all.insert(name.to_string(), declared);
        assert_eq!(before, None, "{} is declared twice", name);
    }
    all
}

fn structs(text: &str) -> Declared {
    let mut all = Declared::new();
    for found in text.split("#[repr(C)]").skip(1) {
        let found = found.split_once("pub struct ").expect("a struct").1;
        let name = until(found, &[" {"]);
        let fields = until(&found[name.len() + 2..], &["}"]);
        all.insert(name.to_string(), pairs(fields));
    }
    all
}

/// A parameter of the Rattle source as the host passes it: a slice is its pointer and its length.
fn passed((name, kind): &(String, String)) -> Vec<(String, String)> {
    let length = format!("{}_len", name.trim_end_matches("_key"));
    let slice =
        |pointer: &str| vec![(name.clone(), pointer.to_string()), (length, "usize".to_string())];
    match kind.as_str() {
        "&[u8]" => slice("*const u8"),
        "&mut [u8]" => slice("*mut u8"),
        _ => vec![(name.clone(), kind.clone())],
    }
}

#[test]
fn each_exported_function_is_declared_as_it_is() {
    let exported = functions(&rattle(), "pub extern \"C\" fn ", &["\n    ensures", "\n{"]);
    let due: Declared = exported
        .into_iter()
        .map(|(name, list)| (name, list.iter().flat_map(passed).collect()))
        .collect();
    let rust = rust();
    let blocks = rust.split("extern \"C\" {").skip(1);
    let blocks: String = blocks.map(|block| until(block, &["\n}"])).collect();
    let declared = functions(&blocks, "fn ", &[";"]);
    assert_eq!(due.len(), 16 + 11);
    for (name, list) in &due {
        assert_eq!(declared.get(name), Some(list), "{}", name);
    }
    assert_eq!(declared.len(), due.len(), "a declaration of what is not exported");
}

#[test]
fn no_exported_function_asks_anything() {
    for file in RATTLE {
        assert!(!source(&format!("crates/{}", file)).contains("requires"), "{}", file);
    }
}

#[test]
fn each_struct_has_the_same_fields() {
    let (ours, theirs) = (structs(&rust()), structs(&rattle()));
    assert_eq!(theirs.len(), 8);
    assert_eq!(ours, theirs);
}

#[test]
fn each_number_is_the_same() {
    let tags = ["KEY: u8", "UNBOUNDED: u8", "INCLUDED: u8", "EXCLUDED: u8"];
    for name in tags.iter().chain(&["KEY_LIMIT: usize"]) {
        let value = |text: &str| {
            let (_, found) = text.split_once(&format!("const {} = ", name)).expect("the constant");
            until(found, &[";"]).to_string()
        };
        assert_eq!(value(&rust()), value(&rattle()), "{}", name);
    }
}
