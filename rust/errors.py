"""The errors of the Rust edition: what `derive(Error)` expands to."""
from tokens import code_of, match, matches

ENUM = code_of("Error)] pub enum $name { $$body }")
STRUCTS = [code_of(f"Error)] #[error($text)] pub struct $name {it}") for it in ("($$of)", "{ $$of }", "")]
CASES = [code_of(f"#[error($text)] $name {it}") for it in ("($$of)", "{ $$of }", "")]
CAUSE = code_of("#[from] $of")
DISPLAY = """
impl core::fmt::Display for %s {
    fn fmt(&self, f: &mut core::fmt::Formatter<'_>) -> core::fmt::Result {
        match self {
            %s
        }
    }
}

impl core::error::Error for %s {}
"""
FROM = """
impl From<%s> for %s {
    fn from(error: %s) -> %s {
        %s::%s(error)
    }
}
"""


def shown(name, found, form):
    """Returns the arm of a `match` that writes the text of a case."""
    text, of = found["$text"][0], code_of("".join(found.get("$$of", [])))
    if "(" in form[-3:]:
        names = ["first", "second"] if "," in of else ["field"]
        used = [it if text == "transparent" or f"{{{i}" in text else "_" for i, it in enumerate(names)]
        name += f"({', '.join(used)})"
        for i, it in enumerate(names):
            text = text.replace(f"{{{i}", f"{{{it}")
    elif of:
        used = [it for it, colon in zip(of, of[1:]) if colon == ":" and "{" + it in text]
        name += f" {{ {', '.join(used)}, .. }}"
    if text == "transparent":
        return f"{name} => core::fmt::Display::fmt(field, f),"
    return f"{name} => {'write!(f, ' if '{' in text else 'f.write_str('}{text}),"


def errors(tokens):
    """Returns what `derive(Error)` stands for: Display, Error, and From for fields marked `from`."""
    made = ""
    for _, form, parts in matches(tokens, ENUM, *STRUCTS):
        name, cases = parts["$name"][0], list(matches(parts.get("$$body", []), *CASES))
        arms = [shown(f"{name}::{of['$name'][0]}", of, case) for _, case, of in cases]
        made += DISPLAY % (name, "\n            ".join(arms or [shown(name, parts, form)]), name)
        for _, _, case in cases:
            if cause := match(case.get("$$of", []), 0, CAUSE):
                of = cause[1]["$of"][0]
                made += FROM % (of, name, of, name, name, case["$name"][0])
    return made
