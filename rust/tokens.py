"""Source text as a list of tokens, and patterns of tokens.

A pattern is code with variables: `$x` matches one word or literal, `$$x` any tokens up to what follows,
with all brackets closed, and `$docs` at the start the comments and attributes before it. Space and
comments may be between the tokens that a pattern matches.
"""
import re
from collections import namedtuple

TOKEN = re.compile(
    r'//[^\n]*|b?r#".*?"#|b?"(?:\\.|[^"\\])*"'
    r"|b?'(?:\\(?:u\{[0-9a-fA-F]+\}|x[0-9a-fA-F]{2}|.)|[^'\\\n])'"
    r"|\$*'?[A-Za-z_]\w*|\d\w*|\s+|[!-~]",
    re.S,
)
CLOSING = {"(": ")", "[": "]", "{": "}"}


def tokens_of(text):
    return TOKEN.findall(text)


def code_of(text):
    """Returns the tokens of a text that are no space."""
    return [it for it in tokens_of(text) if not it.isspace()]


def is_gap(token):
    """Whether a token is space or a comment."""
    return token.isspace() or token.startswith("//")


def after_gap(tokens, at):
    """Returns the position of the first token from `at` on that is no gap."""
    while at < len(tokens) and is_gap(tokens[at]):
        at += 1
    return at


def before_gap(tokens, at):
    """Returns the position of the last token before `at` that is no gap, or -1."""
    at -= 1
    while at >= 0 and is_gap(tokens[at]):
        at -= 1
    return at


def past_group(tokens, at):
    """Returns the position after the token at `at`, or after the bracket that closes it."""
    depth = 0
    for end in range(at, len(tokens)):
        depth += (tokens[end] in CLOSING) - (tokens[end] in CLOSING.values())
        if depth <= 0:
            return end + 1
    return len(tokens)


def runs(tokens, at):
    """The positions at which tokens from `at` on may end that have both brackets of each pair."""
    while at < len(tokens):
        yield at
        if tokens[at] in CLOSING.values():
            return
        at = past_group(tokens, at)


def match(tokens, at, pattern):
    """Returns the position after a match and the tokens of each variable, or None without a match."""
    if not pattern:
        return at, {}
    part, at = pattern[0], after_gap(tokens, at)
    it = tokens[at] if at < len(tokens) else " "
    is_same = it == part or part[0] == "$" and (it[0] in "_\"'" or it[0].isalnum())
    for end in runs(tokens, at) if part.startswith("$$") else [at + 1] * is_same:
        if found := match(tokens, end, pattern[1:]):
            return found[0], {part: tokens[at:end], **found[1]}
    return None


def matches(tokens, *patterns):
    """Yields each position at which one of the patterns matches, which all have the same first token, the
    first that does, and its variables."""
    for at in [i for i, it in enumerate(tokens) if it == patterns[0][0]]:
        found = ((pattern, match(tokens, at, pattern)) for pattern in patterns)
        yield from [(at, pattern, it[1]) for pattern, it in found if it][:1]


def replaced(tokens, pattern, put):
    """Returns the tokens with `put` in place of each match of a pattern."""
    has_docs = pattern[0] == "$docs"
    pattern = pattern[has_docs:]
    if not {it for it in pattern if it[0] != "$"} <= {*tokens}:
        return tokens
    kept, at = [], 0
    while at < len(tokens):
        found = not is_gap(tokens[at]) and pattern[0] in (tokens[at], "$x") and match(tokens, at, pattern)
        if not found:
            kept.append(tokens[at])
            at += 1
            continue
        at = found[0]
        new = [token for it in put for token in found[1].get(it, [it])]
        if has_docs:
            del kept[before_gap(kept, attributes_of(kept, len(kept))) + 1 :]
        elif not new and kept[-1:] and kept[-1].isspace():
            kept.pop()
        elif not new or new[-1] in CLOSING:
            at += tokens[at : at + 1] == [" "]
        kept += new
    return kept


OWNERS = [code_of(it) for it in ("pub trait $name", "impl<$$of> $name", "impl $name")]
# A function: what it is in (the public trait or the first type of the `impl`, and the whole head of that),
# and the positions of its first token after docs and attributes, of `fn`, of what ends its head, and
# after it.
Function = namedtuple("Function", "name owner home start place head_end end")


def owner_of(head):
    """Returns what the functions of an item belong to: a public trait, or the first type of an `impl`."""
    found = [it["$name"][0] for form in OWNERS for _, _, it in matches(head, form)]
    return found[0] if found else ""


def functions(tokens):
    """Returns the functions of a module."""
    found, depth, item, home = [], 0, 0, []
    for at, token in enumerate(tokens):
        if token == "{" and depth == 0:
            home = tokens[item:at]
        depth += (token == "{") - (token == "}")
        if depth == 0 and token in ("}", ";"):
            item, home = at + 1, []
        name = after_gap(tokens, at + 1)
        if token == "fn" and tokens[name : name + 1] and tokens[name].isidentifier():
            head_end = name
            while tokens[head_end] not in ("{", ";"):
                head_end = past_group(tokens, head_end)
            places = start_of(tokens, at), at, head_end, past_group(tokens, head_end)
            found.append(Function(tokens[name], owner_of(home), home, *places))
    return found


def start_of(tokens, at):
    """Returns the position of the first modifier of the item whose keyword is at `at`."""
    while True:
        before = before_gap(tokens, at)
        if before >= 0 and tokens[before] == ")" and tokens[before - 1] in ("crate", "super"):
            before = before_gap(tokens, before - 2)
        if before < 0 or tokens[before] not in ("pub", "const", "unsafe", "extern") and tokens[before][0] != '"':
            return at
        at = before


def attributes_of(tokens, start):
    """Returns the position of the first attribute of the item that starts at `start`, or `start`."""
    while (before := before_gap(tokens, start)) >= 0 and tokens[before] == "]":
        start = max(i for i in range(before) if tokens[i] == "#")
    return start
