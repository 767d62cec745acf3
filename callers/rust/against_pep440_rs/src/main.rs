//! Makes random cases over every call that `pep440_rattle` offers, and compares each result with the ported crate's.
//!
//! Usage: against_pep440_rs [COUNT [SEED]]    (1,000,000 cases, seed 440)
//!
//! Prints the first differences, and how many cases there were of each kind. Exit status: 0 where no result differs, else 1.
use against_pep440_rs::chance::Chance;
use against_pep440_rs::departures;
use against_pep440_rs::version_ranges::Ranges;
use against_pep440_rs::views::{hash, ours, theirs};
use std::cmp::Ordering;
use std::collections::BTreeMap;
use std::panic::catch_unwind;

/// What a case compares: the call with its arguments, and both results.
struct Case {
    kind: &'static str,
    asked: String,
    ours: String,
    theirs: String,
}

fn case<T: std::fmt::Debug>(kind: &'static str, asked: impl std::fmt::Debug, ours: T, theirs: T) -> Option<Case> {
    Some(Case { kind, asked: format!("{asked:?}"), ours: format!("{ours:?}"), theirs: format!("{theirs:?}") })
}

fn has_confused(list: &[theirs::VersionSpecifier]) -> bool {
    list.iter().any(|member| departures::is_confused(member.version()))
}

fn strings(chance: &mut Chance) -> Option<Case> {
    match chance.below(5) {
        0 => {
            let text = chance.version();
            let text = chance.damaged(text);
            case("version", &text, ours::parse_version(&text), theirs::parse_version(&text))
        }
        1 => {
            let text = chance.pattern();
            let text = chance.damaged(text);
            case("pattern", &text, ours::parse_pattern(&text), theirs::parse_pattern(&text))
        }
        2 => {
            let text = chance.specifier();
            let text = chance.damaged(text);
            case("specifier", &text, ours::parse_specifier(&text), theirs::parse_specifier(&text))
        }
        3 => {
            let text = chance.list();
            list_of(&chance.damaged(text))
        }
        _ => {
            let text = chance.one_of(&against_pep440_rs::chance::OPERATORS).to_owned();
            let text = chance.damaged(text);
            case("operator", &text, ours::parse_operator(&text), theirs::parse_operator(&text))
        }
    }
}

fn list_of(text: &str) -> Option<Case> {
    let parsed = text.parse::<theirs::VersionSpecifiers>();
    if parsed.is_ok_and(|list| has_confused(&list)) {
        return None;
    }
    let cut = |said: Result<String, String>| said.map_err(|error| departures::without_widths(&error).to_owned());
    let ours = (cut(ours::parse_list(text)), ours::line_of_error(text));
    case("list", text, ours, (cut(theirs::parse_list(text)), theirs::line_of_error(text)))
}

/// A version, changed now and then, of both crates.
fn both(chance: &mut Chance) -> (ours::Version, theirs::Version, String) {
    loop {
        let text = chance.version();
        let (Some(mine), Some(other)) = (ours::version(&text), theirs::version(&text)) else { continue };
        let changes = if chance.one_in(4) { chance.changes() } else { Vec::new() };
        let asked = format!("{text:?} {changes:?}");
        return (ours::changed(mine, &changes), theirs::changed(other, &changes), asked);
    }
}

fn changed(chance: &mut Chance) -> Option<Case> {
    let (mine, other, asked) = both(chance);
    let change = chance.change();
    let asked = format!("{asked} {change:?}");
    if ours::is_allowed(&mine, &change) {
        return case(
            "setter",
            asked,
            ours::show_version(&ours::change(mine, &change)),
            theirs::show_version(&theirs::change(other, &change)),
        );
    }
    let is_refused = catch_unwind(|| ours::change(mine, &change)).is_err();
    case("setter that panics", asked, is_refused, true)
}

fn ordered(chance: &mut Chance) -> Option<Case> {
    let (mut left, mut left_theirs, asked) = both(chance);
    let (mut right, mut right_theirs, also) = both(chance);
    if chance.one_in(3) {
        // The same version in another spelling, or one change away.
        let changes = if chance.one_in(2) { vec![chance.change()] } else { Vec::new() };
        let release: Vec<u64> = left.release().iter().copied().chain(std::iter::repeat_n(0, chance.below(4) as usize)).collect();
        right = ours::changed(left.clone().with_release(&release), &changes);
        right_theirs = theirs::changed(left_theirs.clone().with_release(&release), &changes);
    }
    if chance.one_in(2) {
        std::mem::swap(&mut left, &mut right);
        std::mem::swap(&mut left_theirs, &mut right_theirs);
    }
    let order = left.cmp(&right);
    let is_consistent = (left == right) == (order == Ordering::Equal)
        && right.cmp(&left) == order.reverse()
        && left.partial_cmp(&right) == Some(order)
        && (order != Ordering::Equal || hash(&left) == hash(&right));
    let wanted = if departures::is_misordered(&left_theirs, &right_theirs) { order } else { left_theirs.cmp(&right_theirs) };
    case("order", format!("{asked} {also} {left:?} {right:?}"), (order, is_consistent), (wanted, true))
}

fn operators(chance: &mut Chance) -> Option<Case> {
    let (mine, other, asked) = both(chance);
    let (operator, wildcard) = (chance.below(10) as usize, chance.one_in(2));
    let shown = ours::show_operator(ours::operators()[operator]);
    let asked = format!("{operator} {asked} {wildcard}");
    case(
        "made",
        asked,
        (ours::made(operator, &mine, wildcard), shown),
        (theirs::made(operator, &other, wildcard), theirs::show_operator(theirs::operators()[operator])),
    )
}

fn unchecked(chance: &mut Chance) -> Option<Case> {
    let (mine, other, asked) = both(chance);
    let (candidate, candidate_theirs, also) = both(chance);
    let operator = chance.below(10) as usize;
    let (mine, other) = (ours::unchecked(operator, mine)?, theirs::unchecked(operator, other)?);
    if departures::is_misordered(other.version(), &candidate_theirs) {
        return None;
    }
    let asked = format!("{operator} {asked} {also}");
    let is_parsed = departures::is_parsed(other.version());
    let there = |found| if is_parsed { show_range_there(found) } else { Err(ours::RangeError::NotParsed) };
    let range = show_range(mine.ranges());
    let is_confused = is_parsed && departures::is_confused(other.version());
    let wanted = if is_confused { range.clone() } else { there(departures::range(&other)) };
    let of_releases = show_range(mine.release_ranges());
    let wanted_of_releases = there(departures::release_range(&other));
    let found = mine.contains(&candidate);
    let is_specified = is_parsed && departures::is_parsed(&candidate_theirs);
    let shown = (ours::show_specifier(&mine), found, range, of_releases);
    let contained = if is_specified { departures::contains(&other, &candidate_theirs) } else { found };
    case("unchecked", asked, shown, (theirs::show_specifier(&other), contained, wanted, wanted_of_releases))
}

fn contained(chance: &mut Chance) -> Option<Case> {
    let text = chance.list();
    let (list, theirs) = (text.parse::<ours::VersionSpecifiers>().ok()?, text.parse::<theirs::VersionSpecifiers>().ok()?);
    let (candidate, candidate_theirs, asked) = both(chance);
    if theirs.iter().any(|member| departures::is_misordered(member.version(), &candidate_theirs)) {
        return None;
    }
    let wanted: Vec<bool> = theirs.iter().map(|member| departures::contains(member, &candidate_theirs)).collect();
    let found: Vec<bool> = list.iter().map(|member| member.contains(&candidate)).collect();
    let whole = (list.contains(&candidate), found);
    if !departures::is_parsed(&candidate_theirs) {
        return None;
    }
    case("contains", format!("{text:?} {asked}"), whole, (wanted.iter().all(|each| *each), wanted))
}

fn compared(chance: &mut Chance) -> Option<Case> {
    let (first, second) = (chance.list(), chance.list());
    let second = if chance.one_in(3) { first.replace("1.0", "1") } else { second };
    let ours = (first.parse::<ours::VersionSpecifiers>().ok()?, second.parse::<ours::VersionSpecifiers>().ok()?);
    let theirs = (first.parse::<theirs::VersionSpecifiers>().ok()?, second.parse::<theirs::VersionSpecifiers>().ok()?);
    if has_confused(&theirs.0) || has_confused(&theirs.1) {
        return None;
    }
    let is_consistent = ours.0 != ours.1 || hash(&ours.0) == hash(&ours.1);
    case(
        "order of lists",
        (first, second),
        (ours.0.cmp(&ours.1), ours.0 == ours.1, is_consistent),
        (theirs.0.cmp(&theirs.1), theirs.0 == theirs.1, true),
    )
}

fn ranges(chance: &mut Chance) -> Option<Case> {
    let text = chance.list();
    let (list, theirs) = (text.parse::<ours::VersionSpecifiers>().ok()?, text.parse::<theirs::VersionSpecifiers>().ok()?);
    if has_confused(&theirs) {
        return None;
    }
    let mut wanted = Some(Ranges::full());
    for member in theirs.iter() {
        wanted = wanted.zip(departures::range(member)).map(|(all, one)| all.intersection(&one));
    }
    let alone = list.first().map(|first| show_range(first.ranges()));
    let alone_theirs = theirs.first().map(|first| show_range_there(departures::range(first)));
    case("ranges", text, (show_range(list.ranges()), alone), (show_range_there(wanted), alone_theirs))
}

/// What either crate says of a range: the segments, or that there is none.
fn show_range(found: Result<Vec<ours::Segment>, ours::RangeError>) -> Result<Vec<String>, ours::RangeError> {
    found.map(|found| ours::show_bounds(found.iter().map(|(low, high)| (low, high))))
}

fn show_range_there(found: Option<Ranges<theirs::Version>>) -> Result<Vec<String>, ours::RangeError> {
    found.map(|found| theirs::show_bounds(found.iter())).ok_or(ours::RangeError::NumberAtMax)
}

fn release_only(chance: &mut Chance) -> Option<Case> {
    let text = chance.list();
    let (list, theirs) = (text.parse::<ours::VersionSpecifiers>().ok()?, text.parse::<theirs::VersionSpecifiers>().ok()?);
    let is_raised = theirs.iter().all(|member| departures::release_range(member).is_some());
    let wanted = is_raised.then(|| theirs::release_specifiers_to_ranges(theirs.clone()));
    let each: Vec<_> = list.iter().map(|member| show_range(member.release_ranges())).collect();
    let each_theirs: Vec<_> = theirs.iter().map(|member| show_range_there(departures::release_range(member))).collect();
    let whole = show_range(list.release_ranges());
    case("release-only ranges", text, (whole, each), (show_range_there(wanted), each_theirs))
}

fn bounds(chance: &mut Chance) -> Option<Case> {
    let mut made = Vec::new();
    let mut last = vec![chance.below(3), chance.below(3)];
    for _ in 0..chance.below(4) {
        let low = if chance.one_in(2) { last.clone() } else { chance.numbers() };
        let high = match (chance.below(3), low.as_slice()) {
            (0, [first, second]) if *second < u64::MAX => vec![*first, second + 1],
            (1, _) => low.clone(),
            _ => chance.numbers(),
        };
        last = if chance.one_in(2) && high.len() == 2 && high[1] < u64::MAX { vec![high[0], high[1] + 1] } else { high.clone() };
        made.push((chance.below(3), low, chance.below(3), high));
    }
    // A number that can't be raised is a departure.
    if made.iter().any(|(_, low, _, high)| low.contains(&u64::MAX) || high.contains(&u64::MAX)) {
        return None;
    }
    case("bounds", &made, ours::from_bounds(&made), theirs::from_bounds(&made))
}

fn sorted(chance: &mut Chance) -> Option<Case> {
    let pairs: Vec<(ours::Version, theirs::Version, String)> = (0..20).map(|_| both(chance)).collect();
    if pairs.iter().any(|(_, other, _)| departures::is_confused(other) || other.max().is_some()) {
        return None;
    }
    let (mut mine, mut other): (Vec<usize>, Vec<usize>) = ((0..20).collect(), (0..20).collect());
    mine.sort_by(|left, right| pairs[*left].0.cmp(&pairs[*right].0));
    other.sort_by(|left, right| pairs[*left].1.cmp(&pairs[*right].1));
    let asked: Vec<&String> = pairs.iter().map(|pair| &pair.2).collect();
    case("sort", asked, mine, other)
}

fn one(chance: &mut Chance) -> Option<Case> {
    match chance.below(17) {
        0..=4 => strings(chance),
        5 | 6 => changed(chance),
        7 | 8 => ordered(chance),
        9 => operators(chance),
        10 => unchecked(chance),
        11 | 12 => contained(chance),
        13 => ranges(chance),
        14 => bounds(chance),
        15 => release_only(chance),
        _ => match chance.below(8) {
            0 => sorted(chance),
            _ => compared(chance),
        },
    }
}

/// What has no argument.
fn constants() -> Option<Case> {
    ours::traits();
    theirs::traits();
    let empty = (ours::VersionSpecifiers::empty(), ours::VersionSpecifiers::default());
    let empty_theirs = (theirs::VersionSpecifiers::empty(), theirs::VersionSpecifiers::default());
    let ours =
        (ours::show_version(&ours::MIN_VERSION), format!("{empty:?}"), catch_unwind(|| ours::Version::new([0; 0])).is_err());
    let theirs = (
        theirs::show_version(&theirs::MIN_VERSION),
        format!("{empty_theirs:?}"),
        catch_unwind(|| theirs::Version::new([0; 0])).is_err(),
    );
    case("constants", (), ours, theirs)
}

fn main() {
    let mut words = std::env::args().skip(1);
    let count: u64 = words.next().map_or(1_000_000, |word| word.parse().expect("a count"));
    let seed: u64 = words.next().map_or(440, |word| word.parse().expect("a seed"));
    let mut chance = Chance::new(seed);
    let (mut kinds, mut made, mut left_out, mut differ) = (BTreeMap::new(), 0, 0, 0);
    std::panic::set_hook(Box::new(|_| {}));
    let mut next = constants();
    while made < count {
        match next {
            None => left_out += 1,
            Some(found) => {
                made += 1;
                *kinds.entry(found.kind).or_insert(0) += 1;
                if found.ours != found.theirs {
                    differ += 1;
                    if differ <= 20 {
                        println!("{} {}\n  ours   {}\n  theirs {}", found.kind, found.asked, found.ours, found.theirs);
                    }
                }
            }
        }
        let before = format!("{}", made);
        next = catch_unwind(std::panic::AssertUnwindSafe(|| one(&mut chance))).unwrap_or_else(|cause| {
            let said = cause.downcast_ref::<String>().cloned().or(cause.downcast_ref::<&str>().map(|text| text.to_string()));
            case("panic", format!("after {before}"), said, None)
        });
    }
    println!("{kinds:?}, {left_out} left out by rule");
    println!("{count} cases, seed {seed}: {differ} results differ");
    std::process::exit(i32::from(differ > 0));
}
