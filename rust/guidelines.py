"""What the Rust API guidelines ask for beside what the proved sources have: derived traits, attributes,
and the code of rust/handwritten/more_methods.rs, which needs the private parts of a module."""
from files import HERE, Stop, parts, read, table
from tokens import after_gap, attributes_of, before_gap, functions, match, matches, past_group, start_of, tokens_of

CONST, PANICS, ITERATORS = table("const"), table("panics"), table("iterators")["names"].split()
PRIVATE, HARMLESS = table("requires")["private"].split(), table("requires")["harmless"].split()
DERIVED = {trait: types.split() for trait, types in table("derives").items()}
# The code that is appended to modules, by their names; the first part is the file's head.
MORE = dict(parts(read(f"{HERE}/handwritten/more_methods.rs"), "//@ ")[1:])
# What iterators that are not used get, as those of Rust's std.
LAZY = '#[must_use = "iterators are lazy and do nothing unless consumed"]\n'
# Names that start results which carry `must_use` themselves.
MARKED = {"Result", "impl", *ITERATORS}


def derived(tokens):
    """Adds the traits of DERIVED in rust/translation_rules.txt, and marks iterators, and enums of errors as
    non-exhaustive."""
    tokens = list(tokens)
    for at in reversed([i for i, it in enumerate(tokens) if it in ("struct", "enum")]):
        start, name = start_of(tokens, at), tokens[after_gap(tokens, at + 1)]
        own, is_error = tokens[attributes_of(tokens, start) : start], name.endswith("Error")
        wanted = [it for it, types in DERIVED.items() if name in types or is_error and it != "PartialEq"]
        more = ", ".join(it for it in wanted if it not in own)
        lines = f"#[derive({more})]\n" * bool(more) + LAZY * (name in ITERATORS and tokens[at] == "struct")
        tokens[start:start] = tokens_of(lines + "#[non_exhaustive]\n" * (is_error and tokens[at] == "enum"))
    return tokens


def must_use(tokens, it):
    """Returns the attribute of a public function that only returns a value."""
    head = [token for token in tokens[it.start : it.head_end] if not token.isspace()]
    head = head[: head.index("where")] if "where" in head else head
    arrows = [i for i in range(len(head)) if head[i : i + 3] == [")", "-", ">"]]
    of = head[arrows[-1] + 3] if arrows else ""
    of = it.owner if of == "Self" else of
    is_marked = of in MARKED or "&mut" in "".join(head) or "for" in it.home
    return "#[must_use]\n" * bool(head[0] == "pub" and head[1] != "(" and of and not is_marked)


def inline(tokens, it):
    """Returns the attribute of a short function: rustc sees one crate at a time, Rattle's compiler all."""
    ends = [token.count("\n") for token in tokens[it.start : it.end]]
    is_short = sum(ends) <= 12 and max(ends) < 2 and tokens[it.head_end] == "{"
    is_plain = tokens[before_gap(tokens, it.start)] != "]" and "super" not in tokens[it.start : it.place]
    return "#[inline]\n" * (is_short and is_plain)


def with_attributes(tokens, is_library):
    """Gives all functions their attributes."""
    tokens = list(tokens)
    for it in reversed(functions(tokens)):
        tokens[it.start : it.start] = tokens_of(must_use(tokens, it) * is_library + inline(tokens, it))
    return tokens


def with_modifiers(module, tokens, asked):
    """Makes functions `const`, and those that have a `requires` private, or says that they panic, as the
    tables of rust/translation_rules.txt say."""
    tokens, names = list(tokens), CONST.get(module, "").split()
    for it in reversed(functions(tokens)):
        key = f"{it.owner}::{it.name}".lstrip(":")
        if it.name in names and not {"trait", "for"} & {*it.home}:
            tokens[it.place : it.place] = ["const", " "]
        if key in asked and key in PRIVATE and match(tokens, it.start, ["pub", "fn"]):
            tokens[it.start : it.start + 1] = ["pub", "(", "crate", ")"]
        if key in asked and key in PANICS:
            tokens[it.start : it.start] = tokens_of(f"///\n/// # Panics\n/// {PANICS[key]}\n")
    if missing := set(names) - {it.name for it in functions(tokens)}:
        raise Stop(f" no function {' '.join(missing)}, which rust/translation_rules.txt names")
    return tokens


def with_added(module, tokens):
    """Appends code of rust/handwritten/more_methods.rs, or puts it into the iterator that it names."""
    tokens = list(tokens)
    (_, rest), *added = parts(MORE.get(module, ""))
    for name, part in added:
        heads = [at for at, _, _ in matches(tokens, ["Iterator", "for", name])]
        if len(heads) != 1:
            raise Stop(f" rust/handwritten/more_methods.rs: expected one iterator {name}, found {len(heads)}")
        end = past_group(tokens, tokens.index("{", heads[0])) - 1
        tokens[end:end] = tokens_of(f"\n{part}\n")
    return tokens + tokens_of(f"\n{rest}")


def guided(module, tokens, is_library):
    """Returns the tokens of a module with all of these, or, if it is not of the library, with `inline`."""
    if not is_library:
        return with_attributes(tokens, False)
    for _, _, found in matches(tokens, ["Iterator", "for", "$name"]):
        if found["$name"][0] not in ITERATORS:
            raise Stop(f" {found['$name'][0]} is an iterator, but not in the table of rust/translation_rules.txt")
    return with_added(module, with_attributes(derived(tokens), True))
