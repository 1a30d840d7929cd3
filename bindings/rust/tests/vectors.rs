//! The fixed vectors of the keys' layer (oracle/vectors): every call that needs no store, with the answer that the customer's Rust, or the model of document 01, gave it.
use std::fs;
use virebony::raw;

/// What stands in a path behind what a call may look at.
const GARBAGE: raw::Path = raw::Path { bytes: [0x77; raw::MPL], ends: [0x7777; raw::MCC], count: 0 };

fn bytes(hex: &str) -> Vec<u8> {
    hex.as_bytes().chunks(2).map(|two| u8::from_str_radix(std::str::from_utf8(two).unwrap(), 16).unwrap()).collect()
}

fn hex(bytes: &[u8]) -> String {
    bytes.iter().map(|byte| format!("{byte:02x}")).collect()
}

fn subspace(text: &str) -> raw::Subspace {
    let number = u128::from_str_radix(text, 16).unwrap();
    raw::Subspace { high: (number >> 64) as u64, low: number as u64 }
}

fn subspace_text(s: raw::Subspace) -> String {
    let number = (s.high as u128) << 64 | s.low as u128;
    if number < 256 { format!("{number:02x}") } else { format!("{number:032x}") }
}

fn digest(text: &str) -> [u8; 32] {
    if text.len() == 2 { [bytes(text)[0]; 32] } else { bytes(text).try_into().unwrap() }
}

/// A path value; of a path that none holds, as much as there is room for, with the count and the ends that it would have.
fn path(text: &str) -> raw::Path {
    let mut path = GARBAGE;
    let mut total = 0;
    for component in text.split('/').filter(|_| text != "-") {
        for byte in if component == "." { vec![] } else { bytes(component) } {
            if total < raw::MPL {
                path.bytes[total] = byte;
            }
            total += 1;
        }
        if path.count < raw::MCC {
            path.ends[path.count] = total;
        }
        path.count += 1;
    }
    path
}

fn path_text(p: raw::Path) -> String {
    let starts = std::iter::once(0).chain(p.ends);
    let parts: Vec<_> = starts.zip(p.ends).take(p.count).map(|(from, to)| if from == to { ".".into() } else { hex(&p.bytes[from..to]) }).collect();
    if parts.is_empty() { "-".into() } else { parts.join("/") }
}

fn entry(f: &[&str]) -> raw::Entry {
    raw::Entry { namespace_id: [0; 16], subspace_id: subspace(f[0]), path: path(f[1]), timestamp: f[2].parse().unwrap(), payload_length: f[3].parse().unwrap(), payload_digest: digest(f[4]) }
}

fn area(f: &[&str]) -> raw::Area {
    let any = f[0] == "*";
    let open = f[3] == "*";
    let times = raw::Times { start: f[2].parse().unwrap(), end: if open { 7 } else { f[3].parse().unwrap() }, open: open as u8 };
    raw::Area { any_subspace: any as u8, subspace: subspace(if any { "77" } else { f[0] }), path: path(f[1]), times }
}

fn range_text(r: raw::Range) -> String {
    let end = |open: u8, text: String| if open != 0 { "*".into() } else { text };
    let (s, p, t) = (r.subspaces, r.paths, r.times);
    let (s, p) = ([subspace_text(s.start), end(s.open, subspace_text(s.end))], [path_text(p.start), end(p.open, path_text(p.end))]);
    [&s[..], &p[..], &[t.start.to_string(), end(t.open, t.end.to_string())]].concat().join(" ")
}

fn triple(d: raw::Decoded) -> (u8, String) {
    (d.refusal, format!("triple {} {} {}", subspace_text(d.subspace), path_text(d.path), d.timestamp))
}

/// The port's answer to a call that needs no store, in the words of the oracle's call language; none for another call.
fn answer(f: &[&str]) -> Option<String> {
    let (refusal, text) = match f[0] {
        "above" => {
            let above = raw::path_greater_but_not_prefixed(path(f[1]));
            (above.refusal, format!("path {}", if above.found == 0 { "*".into() } else { path_text(above.path) }))
        }
        "order" => {
            let (p, q) = (path(f[1]), path(f[2]));
            let (order, prefix, same) = (raw::path_cmp(p, q), raw::path_is_prefix_of(p, q), raw::path_eq(p, q));
            assert!(prefix.refusal == order.refusal && same.refusal == order.refusal);
            assert_eq!(same.yes != 0, order.refusal + order.less + order.greater == 0);
            let word = if order.less != 0 { "less" } else if order.greater != 0 { "greater" } else { "equal" };
            (order.refusal, format!("{word}{}", if prefix.yes != 0 { " prefix" } else { "" }))
        }
        "newer" => {
            let (a, b) = (entry(&f[1..6]), entry(&f[6..11]));
            let (order, prunes) = (raw::entry_compare(a, b), raw::entry_prunes(a, b));
            assert_eq!(raw::entry_is_pruned_by(b, a), prunes);
            assert_eq!(order.refusal, prunes.refusal);
            let word = if order.newer != 0 { "newer" } else if order.older != 0 { "older" } else { "same" };
            (order.refusal, format!("{word} prunes {}", prunes.yes))
        }
        "arange01" => {
            let range = raw::area_to_range(area(&f[1..5]));
            (range.refusal, format!("range {}", range_text(range.range)))
        }
        "key" => {
            let mut keys = [[0x77; raw::KEY_MOST]; 2];
            let (s, p, t) = (subspace(f[1]), path(f[2]), f[3].parse().unwrap());
            let (spt, tsp) = (raw::encode_spt_entry_key(s, p, t, &mut keys[0]), raw::encode_tsp_entry_key(s, p, t, &mut keys[1]));
            assert_eq!(spt, tsp);
            assert!(keys.iter().all(|key| key[spt.length..].iter().all(|byte| *byte == 0x77)));
            (spt.refusal, format!("key {} {}", hex(&keys[0][..spt.length]), hex(&keys[1][..tsp.length])))
        }
        "spt" | "spt01" | "tsp" | "tsp01" => {
            let key = if f[1] == "-" { vec![] } else { bytes(f[1]) };
            let spt = f[0].starts_with("spt");
            let (decoded, read) = if spt { (raw::decode_spt_entry_key(&key), raw::read_spt_entry_key(&key)) } else { (raw::decode_tsp_entry_key(&key), raw::read_tsp_entry_key(&key)) };
            assert_eq!(decoded, read);
            triple(decoded)
        }
        _ => return None,
    };
    Some(if refusal != 0 { format!("refused {refusal}") } else { text })
}

/// How many lines an answer takes: a listing says how many entries follow, a dump has three lists.
fn lines(call: &str, want: &[&str]) -> usize {
    let list = |line: &str| line.rsplit(' ').next().unwrap().parse::<usize>().unwrap() + 1;
    match call {
        _ if want[0].starts_with("list ") => list(want[0]),
        "dump" => (0..3).fold(0, |at, _| at + list(want[at])),
        _ => 1,
    }
}

#[test]
fn the_fixed_vectors_of_calls_that_need_no_store() {
    let (mut answered, mut of_another_form) = (0, 0);
    for name in ["keys-1", "keys-2", "keys-3", "examples-keys", "by-hand", "examples", "refusals", "differences"] {
        let file = |ending| fs::read_to_string(format!("{}/../../oracle/vectors/{name}.{ending}", env!("CARGO_MANIFEST_DIR"))).unwrap();
        let (calls, want) = (file("calls"), file("want"));
        let mut want: &[&str] = &want.lines().collect::<Vec<_>>();
        for call in calls.lines().filter(|line| !line.is_empty() && !line.starts_with('#')) {
            let fields: Vec<_> = call.split(' ').collect();
            // A line of another form is the readable language's to refuse, and no call.
            if want[0] == "bad" {
                of_another_form += 1;
            } else if let Some(got) = answer(&fields) {
                assert_eq!(got, want[0], "{name}: {call}");
                answered += 1;
            }
            want = &want[lines(fields[0], want)..];
        }
        assert!(want.is_empty(), "{name}");
    }
    assert_eq!((answered, of_another_form), (1996, 31));
}
