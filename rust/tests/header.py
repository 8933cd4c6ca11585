"""Whether the C library of the Rust edition has what c/bekstaudi.h declares: functions with their types,
structs with their fields, and the numbers of errors that are returned in place of a count."""
import glob
import re

# The C types of Rust's numbers.
NUMBERS = {f"{kind}{bits}": f"{'u' * (kind == 'u')}int{bits}_t" for kind in "iu" for bits in (8, 16, 32, 64)}
NUMBERS.update({"usize": "size_t", "bool": "bool"})
# The one enum of Rust that the header has too: its negative numbers. The others are those of bks_trie_open.
ERRORS = "bks_error"
FUNCTION = re.compile(r'(?s)pub unsafe extern "C" fn (bks_\w+)\((.*?)\) -> ([\w:]+) \{')
STRUCT = re.compile(r"(?ms)#\[repr\(C\)\]\n(?:#\[derive\(Clone, Copy\)\]\n)?pub struct (\w+) \{\n(.*?)^\}")
# An enum whose variants have numbers, each with lines of docs or none.
ENUM = re.compile(r"(?m)^pub enum (\w+) \{\n((?: +(?:///.*|\w+ = -?\d+,)\n)+)\}")


def c_type(of):
    """The C name of a Rust type."""
    if pointed := re.fullmatch(r"\*(const|mut) ([\w:]+)", of):
        return f"{'const ' * (pointed[1] == 'const')}{c_type(pointed[2])} *"
    name = of.split("::")[-1]
    return NUMBERS.get(name) or f"bks_{name.lower()}"


def declared(header):
    """What the header declares: the types of each function, the fields of each struct, and the
    numbers of each enum."""
    text = re.sub(r"/\*.*?\*/", "", header, flags=re.S).split("static inline")[0]
    functions, structs = {}, {}
    for returned, name, parameters in re.findall(r"(?m)^(\w+) (bks_\w+)\(([^)]*)\);", text):
        named = [] if parameters == "void" else parameters.split(",")
        functions[name] = [returned, *(re.sub(r"\w+$", "", it.strip()).strip() for it in named)]
    for name, body in re.findall(r"typedef struct (bks_\w+) \{(.*?)\}", text, re.S):
        fields = re.findall(r"(?m)^\s*([\w ]+?[ *]+)(\w+);", body)
        structs[name] = [f"{of.strip()} {field}" for of, field in fields]
    enums = dict(re.findall(r"(?m)^enum (bks_\w+) \{(.*?)\}", text, re.S))
    return functions, structs, {ERRORS: re.findall(r"\w+ = -\d+", enums.get(ERRORS, ""))}


def shown(package):
    """What the package has, as the header declares it."""
    functions, structs, enums = {}, {}, {}
    for path in glob.glob(f"{package}/src/**/*.rs", recursive=True):
        with open(path, encoding="utf-8") as file:
            text = file.read()
        for name, parameters, returned in FUNCTION.findall(text):
            types = [it.split(": ")[1].strip() for it in parameters.split(",") if it.strip()]
            functions[name] = [c_type(returned), *map(c_type, types)]
        for name, body in STRUCT.findall(text):
            fields = re.findall(r"(?:pub )?(\w+): ([^\n]+),\n", body)
    
            structs[c_type(name)] = [f"{c_type(of)} {field}" for field, of in fields]
        for name, body in ENUM.findall(text):
            numbers = re.findall(r"(?m)^ +(\w+) = (-?\d+),$", body)
            enums[c_type(name)] = [f"BKS{re.sub('(?=[A-Z])', '_', it).upper()} = {number}" for it, number in numbers]
    return functions, structs, enums


def differences(package, header):
    """Yields where the header and the package have different functions, types, fields or numbers."""
    # In C the bytes of a text are `char`, and other bytes `void` or `uint8_t`.
    bytes_alike = lambda types: [re.sub(r"\b(void|char|uint8_t) \*", "bytes *", it) for it in types]
    for kind, there, here in zip(("function", "struct", "enum"), declared(header), shown(package)):
        for name in sorted(there.keys() | here.keys()):
            one, other = bytes_alike(there.get(name, [])), bytes_alike(here.get(name, []))
            if one != other:
                yield f"{kind} {name}: c/bekstaudi.h has ({', '.join(one)}), the package ({', '.join(other)})"
