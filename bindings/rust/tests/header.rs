//! This crate beside `bindings/c/virebony.h`: the same edition, sizes, names and sentences, and no export without a test.
use virebony::{raw, Refusal};

const HEADER: &str = include_str!("../../c/virebony.h");
const CALLS: &str = include_str!("../src/sys/calls.rs");
const TESTS: [&str; 6] = [
    include_str!("raw_values.rs"),
    include_str!("raw_keys.rs"),
    include_str!("raw_store.rs"),
    include_str!("raw_origins.rs"),
    include_str!("raw_listings.rs"),
    include_str!("common/mod.rs"),
];

/// The names `vb_..` of a text that stand before a parenthesis.
fn names(text: &str) -> Vec<&str> {
    let mut names: Vec<_> = text
        .match_indices("vb_")
        .map(|(at, _)| &text[at..])
        .filter_map(|rest| rest.find(|c: char| !c.is_ascii_alphanumeric() && c != '_').map(|end| rest.split_at(end)))
        .filter(|(name, behind)| behind.starts_with('(') && *name != "vb_refusal_text")
        .map(|(name, _)| name)
        .collect();
    names.sort_unstable();
    names.dedup();
    names
}

#[test]
fn every_export_is_declared_and_tested() {
    let exports = names(HEADER);
    assert_eq!(exports.len(), 37);
    assert_eq!(names(CALLS), exports);
    for name in exports.iter().map(|name| name.replace("vb_", "raw::") + "(") {
        assert!(name == "raw::edition(" || TESTS.iter().any(|test| test.contains(&name)), "{name} is not called");
    }
}

#[test]
fn edition() {
    assert_eq!(raw::edition(), raw::EDITION);
    assert!(HEADER.contains(&format!("#define VB_EDITION {}\n", raw::EDITION)));
}

#[test]
fn numbers() {
    let named =
        [("LIMIT_MOST", raw::LIMIT_MOST), ("RECORD_MOST", raw::RECORD_MOST), ("KEY_MOST", raw::KEY_MOST), ("VALUE", raw::VALUE), ("ITEM", raw::ITEM)];
    let parts = [
        ("VALUE_PAYLOAD_LENGTH", raw::VALUE_PAYLOAD_LENGTH),
        ("VALUE_DIGEST", raw::VALUE_DIGEST),
        ("VALUE_TOKEN", raw::VALUE_TOKEN),
        ("VALUE_AVAILABLE", raw::VALUE_AVAILABLE),
        ("VALUE_ORIGIN", raw::VALUE_ORIGIN),
        ("VALUE_SESSION", raw::VALUE_SESSION),
    ];
    for (name, number) in named.into_iter().chain(parts).chain([("MCL", raw::MCL), ("MCC", raw::MCC), ("MPL", raw::MPL)]) {
        let said = HEADER.lines().any(|line| {
            let line = line.trim();
            line == format!("VB_{name} = {number}")
                || line.starts_with(&format!("VB_{name} = {number},"))
                || line.starts_with(&format!("VB_{name} = {number} "))
        });
        assert!(said, "VB_{name}");
    }
}

#[test]
fn sentences_of_refusals() {
    for refusal in Refusal::ALL {
        let name: String =
            format!("{refusal:?}").chars().flat_map(|c| if c.is_uppercase() { vec!['_', c] } else { vec![c.to_ascii_uppercase()] }).collect();
        assert!(HEADER.contains(&format!("VB{name} = {}", refusal.number())), "{name}");
        assert!(HEADER.contains(&format!("case VB{name}: return \"{refusal}\";")), "{name}");
        assert_eq!(Refusal::from_number(refusal.number()), Some(refusal));
    }
    assert_eq!((Refusal::from_number(0), Refusal::from_number(13)), (None, None));
}

/// What an ingestion does is said in the same words, and in which order the calls about available lengths and the steps of listings are refused.
#[test]
fn words_of_a_call() {
    let words = |text: &'static str, front, behind| {
        let from = text.find(front).unwrap();
        text[from..].split(behind).next().unwrap().split_whitespace().filter(|word| *word != "///").collect::<Vec<_>>()
    };
    let files = "Files an entry with its token";
    assert_eq!(words(HEADER, files, "*/"), words(CALLS, files, "ingest_entry ="));
    for (front, name) in
        [("Records how much of a payload has arrived", "record_available_length"), ("Forgets how much of a payload", "forget_payload")]
    {
        let [header, calls] = [words(HEADER, front, "*/"), words(CALLS, front, name)].map(|words| words.join(" "));
        let calls = &calls[calls.rfind("Refused: ").unwrap()..];
        assert!(header.ends_with(calls), "{name}: {calls}");
    }
    let step = |text, behind| words(text, "A step of an area's listing", behind).join(" ").replace(['[', ']', '`'], "").replace("vb_", "");
    let (header, calls) = (step(HEADER, "*/"), step(CALLS, "query_area ="));
    let calls = &calls[calls.rfind("Refused: ").unwrap()..];
    assert!(header.ends_with(&format!("{calls} Writes nothing.")), "{calls}");
}

/// The header's asserts name a struct, its size and offsets; the crate's own asserts (src/sys) have the same.
#[test]
fn sizes_and_offsets() {
    let ours = [include_str!("../src/sys/values.rs"), include_str!("../src/sys/answers.rs")].concat();
    let mut compared = 0;
    // An assert may go on in the next line.
    let header = HEADER.split("&&\n").map(str::trim_start).collect::<Vec<_>>().join("&& ");
    for line in header.lines().filter(|line| line.starts_with("VB_ASSERT(sizeof(vb_")) {
        let name = &line["VB_ASSERT(sizeof(vb_".len()..line.find(')').unwrap()];
        let name: String = name.split('_').map(|word| word[..1].to_uppercase() + &word[1..]).collect();
        let layout = ours.lines().find(|line| line.trim().starts_with(&format!("{name}: ")) && line.ends_with(';')).expect(&name);
        let numbers: Vec<&str> = line.split(" == ").skip(1).map(|rest| rest.split([' ', ',']).next().unwrap()).collect();
        assert!(layout.contains(&format!("{name}: {}", numbers[0])), "{name}");
        for (part, number) in line.split("offsetof(").skip(1).zip(&numbers[1..]) {
            let field = part.split([' ', ')']).nth(1).unwrap();
            assert!(layout.contains(&format!(", {field} {number}")), "{name}.{field}");
        }
        compared += numbers.len();
    }
    assert_eq!(compared, HEADER.matches("sizeof(vb_").count() + HEADER.matches("offsetof(").count());
}
