//! The sets of the code points that have a property, by any of its names in Unicode's files of aliases.

use crate::binary;
use crate::category::{CATEGORY, Category};
use crate::script::{SCRIPT, Script};
use bekstaudi::codepointinvlist::CodePointInversionList as Set;
use std::sync::LazyLock;

/// The boundaries of the sets of binary properties.
const BINARY: [(&str, &[u32]); 13] = [
    ("any", &[0, 0x110000]),
    ("ascii", &[0, 0x80]),
    ("alphabetic", &binary::Alphabetic::BOUNDARIES),
    ("lowercase", &binary::Lowercase::BOUNDARIES),
    ("uppercase", &binary::Uppercase::BOUNDARIES),
    ("xidstart", &binary::XID_Start::BOUNDARIES),
    ("xidcontinue", &binary::XID_Continue::BOUNDARIES),
    ("math", &binary::Math::BOUNDARIES),
    ("whitespace", &binary::White_Space::BOUNDARIES),
    ("dash", &binary::Dash::BOUNDARIES),
    ("hexdigit", &binary::Hex_Digit::BOUNDARIES),
    ("ideographic", &binary::Ideographic::BOUNDARIES),
    ("emoji", &binary::Emoji::BOUNDARIES),
];

/// Returns the set of the code points with a property, such as `Lu`, `gc=Lu`, `Script=Greek` or `Alphabetic`.
pub fn set_of(property: &str) -> Option<Set<'static>> {
    match property.split_once('=') {
        None => category(property).or_else(|| script(property)).or_else(|| binary(property)),
        Some((name, value)) => match loose(name).as_str() {
            "gc" | "generalcategory" => category(value),
            "sc" | "script" => script(value),
            _ => None,
        },
    }
}

fn category(name: &str) -> Option<Set<'static>> {
    let values = categories(name)?;
    Some(CATEGORY.get_set_where(|it| values.contains(&it)))
}

/// Returns the category with a name, or those of a group.
fn categories(name: &str) -> Option<Vec<Category>> {
    let row = row(&VALUES, "gc ;", name)?;
    if !row.members.is_empty() {
        return Some(row.members.split('|').filter_map(categories).flatten().collect());
    }
    Some(row.names.iter().find_map(|it| Category::from_name(it)).into_iter().collect())
}

fn script(name: &str) -> Option<Set<'static>> {
    let value = row(&VALUES, "sc ;", name)?.names.iter().find_map(|it| Script::from_name(it));
    Some(SCRIPT.get_set_where(|it| Some(it) == value))
}

fn binary(name: &str) -> Option<Set<'static>> {
    let names = match row(&PROPERTIES, "", name) {
        Some(row) => row.names.clone(),
        None => vec![loose(name)],
    };
    let (_, boundaries) = BINARY.iter().find(|(it, _)| names.iter().any(|name| name == it))?;
    Set::try_from_u32_inversion_list_slice(boundaries).ok()
}

/// A row of a file of aliases, such as `gc ; L ; Letter # Ll | Lm | Lo | Lt | Lu`.
struct Row {
    /// What it starts with.
    start: &'static str,
    /// All names after that.
    names: Vec<String>,
    /// The members, if the names are those of a group.
    members: &'static str,
}

static VALUES: LazyLock<Vec<Row>> =
    LazyLock::new(|| rows(include_str!("PropertyValueAliases.txt"), &["gc ;", "sc ;"]));
static PROPERTIES: LazyLock<Vec<Row>> = LazyLock::new(|| rows(include_str!("PropertyAliases.txt"), &[""]));

/// Returns the rows of a file that start with one of these.
fn rows(file: &'static str, starts: &[&'static str]) -> Vec<Row> {
    let row = |line: &'static str| {
        let (start, rest) = starts.iter().find_map(|it| Some((it, line.strip_prefix(it)?)))?;
        let (names, members) = rest.split_once('#').unwrap_or((rest, ""));
        Some(Row { start, names: names.split(';').map(loose).collect(), members })
    };
    file.lines().filter_map(row).collect()
}

/// Returns the row with a name.
fn row(rows: &'static [Row], start: &str, name: &str) -> Option<&'static Row> {
    let name = loose(name);
    rows.iter().find(|it| it.start == start && it.names.contains(&name))
}

/// Returns a name as Unicode compares it: without case, white space, `-` and `_`.
fn loose(name: &str) -> String {
    name.replace([' ', '-', '_'], "").to_ascii_lowercase()
}
