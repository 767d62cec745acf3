//! Versions, specifiers and lists by serde beside the ported crate: random strings, now and then damaged, as JSON, read borrowed and owned, and
//! written again. Built over the ported crate with serde itself by `scripts/callers rust`.
//!
//! Usage: json [COUNT [SEED]]    (1,000,000 of each, seed 440)
use against_pep440_rs::chance::Chance;
use against_pep440_rs::departures::{is_confused, without_widths};
use against_pep440_rs::peer;
use serde_json::{from_reader, from_str, from_value, to_string, Error, Value};

/// What a crate reads of the JSON, as it writes it, or its error.
macro_rules! read {
    ($type:ty, $json:expr) => {{
        let json: &str = $json;
        let said = |found: Result<$type, Error>| match found {
            Ok(value) => Ok(to_string(&value).expect("a string")),
            Err(error) => Err(without_widths(&error.to_string()).to_owned()),
        };
        let owned = from_str(json).and_then(|value: Value| from_value::<$type>(value));
        [said(from_str(json)), said(from_reader(json.as_bytes())), said(owned)]
    }};
}

macro_rules! compare {
    ($name:ident, $json:expr) => {{
        let (ours, theirs) = (read!(pep440_rattle::$name, $json), read!(peer::$name, $json));
        assert_eq!(ours, theirs, "{}", $json);
        u64::from(ours[0].is_ok())
    }};
}

/// A JSON value of the text, or another one.
fn json(chance: &mut Chance, text: String) -> String {
    match chance.below(40) {
        0 => chance.one_of(&["null", "1.0", "1", "[\"1.0\"]", "{}", "true", "\"1.0", "\"\\u0031.0\"", "\"1\\n\"", ""]).to_owned(),
        _ => to_string(&chance.damaged(text)).expect("a string"),
    }
}

/// Whether the ported crate puts the members of the list in another order.
fn is_sorted_otherwise(json: &str) -> bool {
    from_str::<peer::VersionSpecifiers>(json).is_ok_and(|list| list.iter().any(|member| is_confused(member.version())))
}

fn main() {
    let mut words = std::env::args().skip(1);
    let count: u64 = words.next().map_or(1_000_000, |word| word.parse().expect("a count"));
    let mut chance = Chance::new(words.next().map_or(440, |word| word.parse().expect("a seed")));
    let (mut valid, mut left_out) = ([0; 3], 0);
    for _ in 0..count {
        let [version, specifier, list] = [Chance::version, Chance::specifier, Chance::list].map(|make| {
            let text = make(&mut chance);
            json(&mut chance, text)
        });
        valid[0] += compare!(Version, &version);
        valid[1] += compare!(VersionSpecifier, &specifier);
        if is_sorted_otherwise(&list) {
            left_out += 1;
        } else {
            valid[2] += compare!(VersionSpecifiers, &list);
        }
    }
    assert!(valid.iter().all(|valid| *valid > count / 10 && *valid < count), "each result is met: {valid:?}");
    println!("{count} versions, specifiers and lists as JSON, {valid:?} of them valid, {left_out} lists left out: 0 differ");
}
