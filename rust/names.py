"""The names and paths of the Rust edition, and the rules of rust/translation_rules.txt."""
from files import Stop, rules_of, table
from tokens import after_gap, code_of, functions, replaced, tokens_of

FEATURES, RENAMED = table("features"), table("names")
# Methods that allocate.
TRIED = " ".join(table("tried").values()).split()
# Modules of the edition that are no crate.
SHARED = "support ledger host context cold clap serde_json toml".split()


def compiled(rules):
    """Returns rules as tokens. Stops at one that does not turn its example into what it says."""
    made = []
    for pattern, put, *example in rules:
        made.append((code_of(pattern), tokens_of(put)))
        if example and "".join(replaced(tokens_of(example[0]), *made[-1])).strip() != example[1]:
            raise Stop(f"rust/translation_rules.txt: the example of the rule for {pattern!r} does not hold")
    return made


METHODS, SOURCE, LIBRARY = (compiled(rules_of(it)) for it in ("methods", "source", "library"))


def ruled(tokens, rules):
    """Applies rules, one after another."""
    for pattern, put in rules:
        tokens = replaced(tokens, pattern, put)
    return tokens


def renamed(module, tokens):
    """Gives functions the names that RENAMED has for them."""
    tokens, names = list(tokens), dict(it.split("=") for it in RENAMED.get(module, "").split())
    for it in reversed([it for it in functions(tokens) if it.name in names]):
        name = names.pop(it.name)
        tokens[after_gap(tokens, it.place + 1)] = name.removeprefix("crate::")
        if name.startswith("crate::"):
            tokens[it.start : it.start + 1] = ["pub", "(", "crate", ")"]
    if names:
        raise Stop(f" no function {' '.join(names)}, which rust/translation_rules.txt names")
    return tokens


def with_paths(crate, tokens):
    """Changes paths to those of one crate, in which each Rattle crate is a module."""
    made = []
    for at, it in enumerate(tokens):
        is_path = tokens[at + 1 : at + 3] == [":", ":"] and (at == 0 or tokens[at - 1] != ":")
        if is_path and it.startswith(("icu", "ucp", "ucd")):
            made += ["crate", ":", ":"]
        made.append(it)
        if is_path and it == "crate" and tokens[at + 3] not in SHARED:
            made += [":", ":", crate]
    return made


def with_head(module, tokens, names):
    """Adds what a module starts with: the feature that it needs, what Rust's prelude lacks without std, the
    functions that report failed allocations, and other names."""
    lines = f"#![cfg({FEATURES[module]})]\n" if module in FEATURES else ""
    place = next((at for at, it in enumerate(tokens) if not it.isspace() and not it.startswith("//!")), 0)
    return tokens[:place] + tokens_of(f"{lines}use crate::support::prelude::*;\n{names}") + tokens[place:]
