"""The public functions of the libraries, read from their sources, and what their signatures say
about memory; and the items that icu_collections re-exports."""
import glob
import os
import re

# The crate that callers use.
SHOWN = "icu_collections"
# Error types for failed allocations, besides each enum with a variant `Memory` or one for such an
# enum.
ANSWERS = {"MemoryError", "AllocError", "ApplyRefused"}
WANTS = re.compile(r"\bMemory\b")
ENUM = re.compile(r"^pub enum (\w+)[^{]*\{(.*?)^\}", re.M | re.S)
# Traits whose methods operators or formatting call, and traits that the caller implements.
UNNAMED = set("Clone Copy Debug Display Drop Eq Error Hash Model PartialEq Cells Sink Source".split())
# Types that do not exist at run time.
GHOSTS = {"Steps"}
# What a file exports by `pub use`, and what it defines.
USED = re.compile(r"pub use (\w+)((?:::\w+)*?)(?:::(\w+|\{[^}]*\}))?(?: as \w+)?;")
EXPORTED = re.compile(r"^pub use [\w:]*?(\w+|\{[^}]*\});|^pub (?:struct|enum|trait) (\w+)", re.M)
# What a function does about memory; if several have one name, the last of these kinds counts.
KINDS = ["converts", "none", "takes", "answers"]
# An `impl` or a trait, its end, and a function up to its clauses or its body.
ITEM = re.compile(
    r"^(?P<head>(?:pub )?(?:impl|trait)\b[^{;]*)\{"
    r"|^(?P<end>\})"
    r"|^ *(?P<public>pub )?(?:const |final )*fn (?P<name>\w+)(?P<signature>(?:[^{};]|\{[^{}]*\})*?)"
    r"(?=\n? *(?:requires|ensures|decreases)\b|[{;])",
    re.M,
)


def sources(crate):
    return sorted(glob.glob(f"crates/{crate}/src/**/*.rt", recursive=True))


def plain(text):
    """The source without its comments."""
    return re.sub(r"//[^\n]*", "", text)


def plain_file(path):
    with open(path, encoding="utf-8") as file:
        return plain(file.read())


def without_generics(text):
    """The head of an item without what is in angle brackets."""
    while re.search(r"<[^<>]*>", text.replace("->", "  ")):
        text = re.sub(r"<[^<>]*>", "", text.replace("->", "  "))
    return text


def owner_of(head):
    """The type or trait of an item, and the trait of an `impl`, or this trait."""
    bare = re.sub(r"^impl<(?:[^<>]|<[^<>]*>)*>", "impl ", head)
    left, _, right = without_generics(bare).partition(" for ")
    names = re.findall(r"(?<!')\b\w+", right or left)
    owner = next(it for it in names if it not in ("impl", "pub", "trait", "mut"))
    return owner, owner if "trait " in head else re.findall(r"\w+", left)[-1] if right else None


def shown():
    """Each type, trait and function that icu_collections re-exports by name, with its module there; and
    each module that it re-exports as a whole, by its folder or file."""
    names, modules = {}, {}
    for path in sources(SHOWN):
        module = os.path.basename(path)[:-3].replace("lib", SHOWN)
        for crate, within, last in USED.findall(plain_file(path)):
            folder = f"crates/{crate}/src{within.replace('::', '/')}"
            for name in re.findall(r"\w+", last or crate):
                if not last:
                    modules[folder] = name
                elif os.path.isdir(f"{folder}/{name}") or os.path.isfile(f"{folder}/{name}.rt"):
                    modules[f"{folder}/{name}"] = name
                else:
                    names[name] = module
    return names, modules


def whole_module(path, modules):
    """The module that is re-exported as a whole and has this file, or None."""
    return next((module for folder, module in modules.items() if path.startswith(folder)), None)


def calls_of(text, names, traits, module, answers):
    """The public functions of a file, each with its kind: `names` are the re-exported names, `traits`
    the traits among them; `module` is the file's module if all of it is re-exported, else None."""
    owner, trait = None, None
    for item in ITEM.finditer(text):
        name = item["name"]
        if not name:
            owner, trait = owner_of(item["head"]) if item["head"] else (None, None)
        elif trait in UNNAMED or owner in GHOSTS or not (item["public"] or trait):
            continue
        elif owner and (owner in names or module or trait in traits):
            # A method of a trait that the library defines is listed under the trait.
            kind = "converts" if trait == "From" else memory_of(item["signature"], answers)
            yield f"{trait if trait in traits else owner}::{name}", kind
        elif not owner and (module or name in names):
            yield f"{names.get(name, module)}::{name}", memory_of(item["signature"], answers)


def memory_of(signature, answers):
    """The kind of a function with this signature: `answers` if it returns an out-of-memory error,
    `takes` if it only takes an allocator, else `none`."""
    taken, _, answer = signature.partition("->")
    if answers & set(re.findall(r"\w+", answer)):
        return "answers"
    return "takes" if re.search(r"\balloc: Global\b", taken) else "none"


def public_calls():
    """Each public function by its name, as `CodePointInversionListBuilder::add_char`, and its kind."""
    names, modules = shown()
    crates = sorted({os.path.basename(it) for it in glob.glob("crates/icu_*")} - {SHOWN})
    texts = {path: plain_file(path) for crate in crates for path in sources(crate)}
    # Whether each enum has a variant for failed allocations, by its crate and name.
    enums = {(path.split("/")[1], name): WANTS.search(body) for path, it in texts.items() for name, body in ENUM.findall(it)}
    answers = ANSWERS | {name for (_, name), wants in enums.items() if wants}
    # What a module that is re-exported as a whole makes public: its own items, and those that it
    # re-exports by `pub use`.
    for path, text in texts.items():
        if module := whole_module(path, modules):
            for name in re.findall(r"\w+", " ".join(map("".join, EXPORTED.findall(text)))):
                names.setdefault(name, module)
    traits = {name for it in texts.values() for name in re.findall(r"^pub trait (\w+)", it, re.M)} & names.keys()
    found = {}
    for path, text in texts.items():
        whole = whole_module(path, modules)
        module = whole and os.path.basename(path)[:-3].replace("lib", whole).replace("mod", whole)
        # A signature refers to its own crate's enum of that name.
        others = {name for (crate, name), wants in enums.items() if not wants and crate in path.split("/")}
        for call, kind in calls_of(text, names, traits, module, answers - others):
            found[call] = max(kind, found.get(call, kind), key=KINDS.index)
    return found
