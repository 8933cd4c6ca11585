"""Removes the proofs from Rattle source. What is left is Rust, with its comments unchanged.

Everything that is no proof has to have a form that is listed here. Two names side by side, a word after a
bracket that is no keyword of Rust, an unlisted attribute or macro, and a character outside ASCII are
errors, reported with their line. So a new form of clause cannot pass unnoticed.
"""
import re

from files import Stop
from tokens import TOKEN, before_gap, is_gap

KEYWORDS = set(
    "as break const continue crate dyn else enum extern fn for if impl in let loop match mod move"
    " mut pub ref return self Self static struct super trait type unsafe use where while true false".split()
)
BEFORE_NAMES = KEYWORDS - set("break continue crate loop self Self super true false".split())
ATTRIBUTES = set("allow cold derive error from inline repr".split())
MACROS = set("assert assert_eq eprintln json matches unreachable vec write writeln".split())
# The proofs: how each starts, and how it goes on. If that ends with `(?={)`, braces of the proof language
# follow.
GHOST = r"ghost\b"
PROOFS = [
    (r"(?:requires|ensures)\b", r"(?:\s+[a-z_]\w*)?\s*(?={)"),
    (r"ghost\s+use\b", r"[^;{]*(?:\{[^{}]*\})?\s*;"),
    (GHOST, r"\s+\w+\s*[:=]\s*(?={)"),
    (r"prove!", r"\([^{]*?\);(?=\n)"),
    (r"impl(?:<[^{};]*>)?\s+Model\b", r"\s+for\b[^{};]*(?={)"),
    (r"#!?\[tactic\b", r"\((?:[^()]|\((?:[^()]|\([^()]*\))*\))*\)\]"),
]
BY = re.compile(r"\s*(?:by|=)\s*(?={)")
# What ends a ghost item. A parameter of a proof has no end: a clause of the function follows it.
END = re.compile(r"[,;]|(?=\s*(?:ghost|requires|ensures)\b)")
# What is left in place of a `requires`, until rust/make has noted whose it is.
ASKED = "//requires"


class Eraser:
    """Splits one file into tokens, and drops the proofs."""

    def __init__(self, text):
        self.text, self.place, self.kept = text, 0, []

    def refuse(self, why):
        raise Stop(f"{self.text.count(chr(10), 0, self.place) + 1}: {why}: {self.text[self.place:][:50]!r}")

    def past_braces(self, start):
        """Returns the position after the braces of the proof language at `start`."""
        depth = 0
        for found in re.compile(r'--[^\n]*|"[^"\n]*"|[{}]').finditer(self.text, start):
            depth += {"{": 1, "}": -1}.get(found[0], 0)
            if depth == 0:
                return found.end()
        return self.refuse("a brace without its partner")

    def proof(self):
        """Skips a proof, if one starts here, and returns whether one did."""
        start, rest = next((it for it in PROOFS if re.compile(it[0]).match(self.text, self.place)), ("", ""))
        if not start:
            return False
        found = re.compile(start + rest).match(self.text, self.place) or self.refuse("a proof of an unknown form")
        end = found.end() if found[0][-1] in ";]" else self.past_braces(found.end())
        if start == GHOST:
            by = BY.match(self.text, end)
            end = self.past_braces(by.end()) if by else end
            end = (END.match(self.text, end) or self.refuse("a ghost item that does not end with `,` or `;`")).end()
        while self.kept and (self.kept[-1].isspace() or start[0] != "#" and self.kept[-1].startswith("///")):
            self.kept.pop()
        self.kept += [ASKED] * found[0].startswith("requires")
        self.place = end
        return True

    def erased(self):
        """Returns the tokens that are left."""
        while self.place < len(self.text):
            if self.proof():
                continue
            found = TOKEN.match(self.text, self.place) or self.refuse("an unknown character")
            if not is_gap(found[0]):
                self.admit(found[0])
            self.kept.append(found[0])
            self.place = found.end()
        return self.kept

    def admit(self, token):
        """Stops at a token that may not follow those before it."""
        before = [it for it in self.kept[-12:] if not is_gap(it)] or [";"]
        last, name = before[-1], token.isidentifier() and token not in KEYWORDS
        seen_to = "".join(before[-4:]).endswith(("pub(crate)", "pub(super)"))
        if name and (last[0].isdigit() or last[-1] in "\"'" or last == ")" and not seen_to):
            self.refuse("a word after the end of an expression")
        if name and last.isidentifier() and last not in BEFORE_NAMES:
            self.refuse("two names side by side")
        if name and before[-2:] in (["#", "["], ["!", "["]) and token not in ATTRIBUTES:
            self.refuse("an unknown attribute")
        after = self.text[self.place + 1 : self.place + 2]
        if token == "!" and last.isidentifier() and last not in KEYWORDS | MACROS and after in "[({":
            self.refuse("an unknown macro")
        if token == "{":
            self.join_body()

    def join_body(self):
        """Drops the lines between a head and its body: clauses were there, with comments."""
        last = before_gap(self.kept, len(self.kept))
        gap = self.kept[last + 1 :]
        if last >= 0 and self.kept[last] not in (",", ";", "{", "}") and any("\n" in it for it in gap):
            self.kept[last + 1 :] = [it for it in gap if it == ASKED] + [" "]
