//! Compares random pairs of versions by their compiled bytes, by their strings and by the ported crate; batches of them, by their sort keys
//! and as sorted; edited ones with what the ported crate makes; and whether lists contain versions, as strings, with their sets and without.
//! Then gives random and changed byte strings to `pep440_normalize`: it rejects them, or they are what the printed version is compiled to.
//!
//! Usage: bytes [COUNT [SEED]]    (1,000,000 of each, of lists twice as many, seed 440)
use against_pep440_rs::chance::Chance;
use against_pep440_rs::departures::{self, is_misordered};
use against_pep440_rs::library::{compare, compile, compile_all, compile_list, contains, edit, normalize, sort, sort_keys, INVALID_VERSION};
use against_pep440_rs::views::{ours, theirs};
use std::cmp::Ordering;

/// What a compiled version begins with.
const VERSION: u8 = 4;
/// What the members of a compiled list begin with.
const MEMBERS: u8 = 5;

/// The sort key: all but the first byte and the bytes 1 at the end.
fn key(compiled: &[u8]) -> &[u8] {
    let end = compiled.iter().rposition(|byte| *byte != 1).expect("a key ends with 0");
    &compiled[1..=end]
}

/// A version, its compiled bytes and that of the ported crate.
fn some_version(chance: &mut Chance) -> (String, Vec<u8>, theirs::Version) {
    loop {
        let text = chance.version();
        if let Some(other) = theirs::version(&text) {
            let compiled = compile(text.as_bytes()).unwrap_or_else(|status| panic!("{text:?}: {status}"));
            return (text, compiled, other);
        }
    }
}

/// How many of the pairs are equal, and how many the ported crate orders wrongly.
fn compare_pairs(chance: &mut Chance, count: u64) -> (u64, u64) {
    let (mut equal, mut misordered) = (0, 0);
    for _ in 0..count {
        let (left, left_bytes, left_theirs) = some_version(chance);
        let (right, right_bytes, right_theirs) = some_version(chance);
        let order = key(&left_bytes).cmp(key(&right_bytes));
        let asked = format!("{left:?} {right:?}");
        assert_eq!(compare(&left_bytes, &right_bytes), order, "{asked}");
        assert_eq!(compare(left.as_bytes(), right.as_bytes()), order, "{asked}");
        assert_eq!(ours::version(&left).cmp(&ours::version(&right)), order, "{asked}");
        equal += u64::from(order == Ordering::Equal);
        if is_misordered(&left_theirs, &right_theirs) {
            misordered += 1;
        } else {
            assert_eq!(left_theirs.cmp(&right_theirs), order, "{asked}");
        }
    }
    (equal, misordered)
}

/// A batch of as many versions: each is compiled as alone, its sort key is in its compiled bytes, and they are sorted by these keys.
fn sort_batch(chance: &mut Chance, count: usize) {
    let (texts, compiled): (Vec<String>, Vec<Vec<u8>>) = (0..count).map(|_| some_version(chance)).map(|it| (it.0, it.1)).unzip();
    let wanted: Vec<&[u8]> = compiled.iter().map(|bytes| key(bytes)).collect();
    assert_eq!(sort_keys(&texts), wanted, "{texts:?}");
    assert_eq!(compile_all(&texts), compiled, "{texts:?}");
    let mut by_key: Vec<usize> = (0..count).collect();
    by_key.sort_by_key(|index| wanted[*index]);
    assert_eq!(sort(&texts), by_key, "{texts:?}");
}

/// A change, made by an edit and by the ported crate.
fn edit_version(chance: &mut Chance) {
    let ((text, _, version), number) = (some_version(chance), chance.number());
    let (change, wanted) = match chance.below(6) {
        0 => (format!("post={number}"), version.with_post(Some(number))),
        1 => (format!("dev={number}"), version.with_dev(Some(number))),
        2 => ("dev=".to_owned(), version.with_dev(None)),
        3 => (format!("epoch={number}"), version.with_epoch(number)),
        4 => ("without-local".to_owned(), version.without_local()),
        _ => ("only-release".to_owned(), version.only_release()),
    };
    let wanted = Ok(wanted.to_string().into_bytes());
    assert_eq!(edit(text.as_bytes(), std::slice::from_ref(&change)), wanted, "{text:?} {change}");
}

/// The members of a compiled list, with their format byte: after the set and how many bytes it has, if it has one.
fn members(compiled: &[u8]) -> &[u8] {
    if compiled[0] == MEMBERS {
        return compiled;
    }
    let (count, rest) = compiled[2..].split_at(usize::from(compiled[1]));
    &rest[count.iter().fold(0, |size, byte| size * 256 + usize::from(*byte))..]
}

/// How many of the lists contain their version, and how many pairs the ported crate orders wrongly.
fn ask_lists(chance: &mut Chance, count: u64) -> (u64, u64) {
    let (mut all_contained, mut misordered) = (0, 0);
    for _ in 0..count {
        let text = chance.list();
        let Ok(list) = text.parse::<theirs::VersionSpecifiers>() else { continue };
        let (version, bytes, version_theirs) = some_version(chance);
        let compiled = compile_list(text.as_bytes()).unwrap_or_else(|status| panic!("{text:?}: {status}"));
        let found = contains(text.as_bytes(), version.as_bytes());
        for form in [text.as_bytes(), &compiled, members(&compiled)] {
            assert_eq!(contains(form, &bytes), found, "{text:?} {version:?} {form:?}");
            assert_eq!(contains(form, version.as_bytes()), found, "{text:?} {version:?} {form:?}");
        }
        all_contained += u64::from(found.0);
        if list.iter().any(|member| is_misordered(member.version(), &version_theirs)) {
            misordered += 1;
        } else {
            let wanted = list.iter().all(|member| departures::contains(member, &version_theirs));
            assert_eq!(found, (wanted, version_theirs.any_prerelease()), "{text:?} {version:?}");
        }
    }
    (all_contained, misordered)
}

/// Compiled bytes with some bytes replaced, put in, left out, or cut; now and then bytes by chance.
fn some_bytes(chance: &mut Chance) -> Vec<u8> {
    if chance.one_in(4) {
        let random =
            (0..chance.below(24)).map(|_| if chance.one_in(2) { chance.below(4) as u8 * 16 } else { chance.below(256) as u8 });
        return std::iter::once(4).chain(random.collect::<Vec<u8>>()).collect();
    }
    let mut bytes = some_version(chance).1;
    for _ in 0..=chance.below(2) {
        let place = chance.below(bytes.len() as u64) as usize;
        let value =
            if chance.one_in(2) { [0, 1, 2, 16, 32, 80, 81, 97][chance.below(8) as usize] } else { chance.below(256) as u8 };
        match chance.below(8) {
            0 => bytes.insert(place, value),
            1 if bytes.len() > 1 => drop(bytes.remove(place)),
            2 if place > 0 => bytes.truncate(place),
            3 => bytes.push(value),
            _ => bytes[place] = value,
        }
    }
    bytes
}

/// How many byte strings denote a version.
fn read_bytes(chance: &mut Chance, count: u64) -> u64 {
    let mut printed = 0;
    for _ in 0..count {
        let bytes = some_bytes(chance);
        match normalize(&bytes) {
            Ok(print) => {
                // Bytes of another format are a string.
                let compiled = if bytes[0] == VERSION { Ok(bytes) } else { compile(&bytes) };
                assert_eq!(compile(&print), compiled, "{}", String::from_utf8_lossy(&print));
                printed += 1;
            }
            Err(status) => assert_eq!(status, INVALID_VERSION, "{bytes:?}"),
        }
    }
    printed
}

fn main() {
    let mut words = std::env::args().skip(1);
    let count: u64 = words.next().map_or(1_000_000, |word| word.parse().expect("a count"));
    let mut chance = Chance::new(words.next().map_or(440, |word| word.parse().expect("a seed")));
    let (equal, misordered) = compare_pairs(&mut chance, count);
    (0..count / 100).for_each(|_| sort_batch(&mut chance, 100));
    (0..count).for_each(|_| edit_version(&mut chance));
    let (contained, unordered) = ask_lists(&mut chance, 2 * count);
    let printed = read_bytes(&mut chance, count);
    println!(
        "{count} pairs have one order by bytes, by strings and by the ported crate ({equal} equal; {misordered} that it orders wrongly); \
         as many are sorted by their keys, and edited as it edits them; of {} lists {contained} contain a version by all, {unordered} have versions that it orders wrongly; of {count} byte strings {printed} are \
         what they print as, the others are rejected",
        2 * count
    );
    assert!(printed > count / 100 && printed < count, "each result is met");
}
