//! Each public function, trait, field and variant of the ported crate is the same, as named here, or departs from it, as the README's table says, and
//! the cases call each function.
use std::collections::BTreeSet;
use std::fs;

const README: &str = include_str!("../../pep440_rattle/README.md");
const CALLS: &str = concat!(include_str!("../src/views.rs"), include_str!("../src/main.rs"), include_str!("../src/lib.rs"));

/// What is the same, in the form of the table's first cells.
const SAME: &str = "
`Version`: `FromStr`, `Display`, `Debug`, `Clone`, `new`, `with_release`, `with_epoch`, `with_pre`, `with_post`, `with_dev`, `with_local`, `without_local`
`Version`: `only_release`, `any_prerelease`, `is_stable`, `is_pre`, `is_dev`, `is_post`, `is_local`, `epoch`, `release`, `pre`, `post`, `dev`, `local`
`Prerelease::kind`, `number`; `PrereleaseKind::Alpha`, `Beta`, `Rc`; of both `Display`, `Debug`, `Clone`, `Copy`, `Eq`, `Ord`, `Hash`
`LocalSegment::String`, `Number`, `Display`, `Debug`, `Clone`, `Eq`, `Ord`, `Hash`
`VersionPattern::verbatim`, `wildcard`, `version`, `into_version`, `is_wildcard`, `FromStr`, `Debug`, `Clone`, `Eq`, `Hash`
`Operator::Equal`, `EqualStar`, `ExactEqual`, `NotEqual`, `NotEqualStar`, `TildeEqual`, `LessThan`, `LessThanEqual`, `GreaterThan`, `GreaterThanEqual`
`Operator::negate`, `is_star`, `FromStr`, `Display`, `Debug`, `Clone`, `Copy`, `Eq`, `Ord`, `Hash`
`VersionSpecifier`, `VersionSpecifiers`: `FromStr`, `Display`, `Debug`, `Clone`, `Eq`, `Ord`, `Hash`
`VersionSpecifier::from_pattern`, `from_version`, `operator`, `version`, `into_parts`, `any_prerelease`, `has_lower_bound`
`VersionSpecifier::equals_version`, `equals_star_version`, `not_equals_version`, `not_equals_star_version`
`VersionSpecifier::greater_than_version`, `greater_than_equal_version`, `less_than_version`, `less_than_equal_version`
`VersionSpecifier::from_lower_bound`, `from_upper_bound`
`VersionSpecifiers::empty`, `contains`, `is_empty`, `Default`, `Deref`, `FromIterator`, `IntoIterator`, `From<VersionSpecifier>`
`VersionSpecifiersParseError::line`, `VersionPatternParseError`: `From<VersionParseError>`
`OperatorParseError`: `Display`, `Error`, `Debug`, `Clone`, `Eq`
`VersionParseError`, `VersionPatternParseError`, `VersionSpecifierBuildError`, `VersionSpecifiersParseError`: `Display`, `Error`, `Clone`
";

/// A name of the ported crate, and the type that has it; none of a function or static of the crate itself.
type Item = (String, String);

fn words(text: &str) -> impl Iterator<Item = &str> {
    text.split(|letter: char| !(letter.is_alphanumeric() || letter == '_')).filter(|word| !word.is_empty())
}

/// The first word after `before`, where the line begins with that.
fn word_after<'a>(line: &'a str, before: &str) -> Option<&'a str> {
    line.strip_prefix(before).and_then(|rest| words(rest).next())
}

/// The trait and the type of the first line of an impl, `From` with what it takes; the trait is empty where there is none.
fn trait_and_type(line: &str) -> Option<Item> {
    let rest = line.strip_prefix("impl")?.trim_end_matches(" {");
    let rest = if rest.starts_with('<') { rest.split_once('>')?.1 } else { rest }.trim();
    let Some((named, of)) = rest.split_once(" for ") else { return Some((String::new(), words(rest).next()?.to_owned())) };
    let last = named.rsplit("::").next()?;
    let named = if last.starts_with("From<") { last } else { words(last).next()? };
    Some((named.to_owned(), if of.starts_with("Ranges") { of } else { words(of).next()? }.to_owned()))
}

/// What is public in a source of the ported crate.
fn items(source: &str) -> Vec<Item> {
    let (mut found, mut derived, mut open, mut is_enum) = (Vec::new(), Vec::new(), String::new(), false);
    for line in source.lines() {
        if let Some(rest) = line.strip_prefix("#[derive(") {
            derived = words(rest).map(str::to_owned).collect();
        } else if let Some(name) = word_after(line, "pub struct ").or(word_after(line, "pub enum ")) {
            (open, is_enum) = (name.to_owned(), line.starts_with("pub enum "));
            found.extend(derived.drain(..).map(|each| (open.clone(), each)));
        } else if let Some((named, of)) = trait_and_type(line) {
            (open, is_enum) = (of, false);
            found.extend((!named.is_empty()).then(|| (open.clone(), named)));
        } else if let Some(name) = word_after(line, "pub fn ").or(word_after(line, "pub static ")) {
            found.push((String::new(), name.to_owned()));
        } else if let Some(name) = word_after(line, "    pub fn ").or(word_after(line, "    pub ")) {
            found.extend((!line.contains("pub(crate)")).then(|| (open.clone(), name.to_owned())));
        } else if is_enum && line.starts_with("    ") && line[4..].starts_with(char::is_uppercase) {
            found.extend(words(line).next().map(|name| (open.clone(), name.to_owned())));
        } else if line == "}" {
            (open, is_enum) = (String::new(), false);
        } else if !line.starts_with('#') && !line.starts_with(' ') && !line.starts_with(')') {
            derived.clear();
        }
    }
    found
}

/// The public names: of the crate, and those of the private types left out.
fn surface() -> BTreeSet<Item> {
    let source = |name: &str| fs::read_to_string(format!("{}/{name}.rs", env!("PEER_SOURCES"))).expect("a source");
    let root = source("lib");
    let exported: BTreeSet<&str> =
        root.split("pub use").skip(1).flat_map(|text| words(text.split(';').next().unwrap())).collect();
    let is_public = |(of, name): &Item| {
        let taken = name.strip_prefix("From<").map(|rest| rest.trim_end_matches('>'));
        (of.is_empty() && exported.contains(name.as_str()) || of.starts_with("Ranges") || exported.contains(of.as_str()))
            && taken.is_none_or(|taken| exported.contains(taken))
    };
    ["version", "version_specifier", "version_ranges"].iter().flat_map(|name| items(&source(name))).filter(is_public).collect()
}

/// The names in each line of what is the same, then in the first cell of each row, with its second cell.
fn rows() -> Vec<(BTreeSet<&'static str>, &'static str)> {
    let table = README.split("\n## Beside").nth(1).expect("a section with the table");
    let same = SAME.lines().filter_map(|line| Some((line.strip_prefix('`')?, "same")));
    let cells = table.lines().filter_map(|line| line.strip_prefix("| `")?.strip_suffix(" |")?.split_once(" | "));
    let names = |cell: &'static str| cell.split('`').step_by(2).flat_map(|name| name.split("::")).collect();
    same.chain(cells).map(|(first, second)| (names(first), second)).collect()
}

/// Whether the names of a row have the item; one that names `Eq` has `PartialEq`.
fn has(names: &BTreeSet<&str>, (of, name): &Item) -> bool {
    let stronger = ["PartialEq", "PartialOrd"].contains(&name.as_str()).then(|| &name[7..]);
    (of.is_empty() || names.contains(of.as_str()))
        && (names.contains(name.as_str()) || stronger.is_some_and(|it| names.contains(it)))
}

#[test]
fn table_names_each_item() {
    let (rows, surface) = (rows(), surface());
    let row_of = |item: &Item| rows.iter().find(|(names, _)| has(names, item)).map(|(_, said)| *said);
    let missing: Vec<&Item> = surface.iter().filter(|item| row_of(item).is_none_or(|said| said.starts_with("missing"))).collect();
    assert!(missing.is_empty(), "in no row, or missing: {missing:?}");
    let departed = surface.iter().filter(|item| row_of(item) != Some("same")).count();
    println!("{} names of the ported crate: {} same, {departed} departed, 0 missing", surface.len(), surface.len() - departed);
    assert!(surface.len() > 100, "the sources are not read: {surface:?}");
}

#[test]
fn cases_call_each_function() {
    let is_called = |name: &str| !name.starts_with(char::is_lowercase) || words(CALLS).any(|word| word == name);
    let uncalled: Vec<Item> = surface().into_iter().filter(|(_, name)| !is_called(name)).collect();
    assert!(uncalled.is_empty(), "in no case: {uncalled:?}");
}

/// The examples in the documentation of the ported crate, with no more than the crate's name changed.
#[allow(unused_variables)]
mod examples {
    include!(concat!(env!("OUT_DIR"), "/examples.rs"));
}
