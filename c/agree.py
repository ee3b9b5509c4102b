#!/usr/bin/env python3
"""Holds include/brasspurse.h to the library's sources, and to the library and the C test.

    c/agree.py                  to the sources alone, as the gate does: it needs no compiler
    c/agree.py DEFINED CALLED   to the library and the test too

Compared with the sources in crates/ are the functions, their parameters and what they return,
every field of every struct, in their order, the numbers of the origins and of a register's states,
and the refusals' names and numbers; each refusal must have a text of its own in
brasspurse_refusal_text. The header's version must be that of rust/Cargo.toml and the newest of
CHANGELOG.md. DEFINED is the output of `nm -P` on what libbrasspurse.a defines, CALLED on what the
test's object takes from elsewhere: with these, the functions' names are compared. What differs is
printed, and the exit status is 1. So it is for a line of either side that is not understood.
"""

import re
import sys
from pathlib import Path

ROOT = Path(__file__).resolve().parent.parent
HEADER = ROOT / "include/brasspurse.h"
CRATES = ROOT / "crates"

SCALARS = {
    "u8": "uint8_t",
    "u16": "uint16_t",
    "u32": "uint32_t",
    "u64": "uint64_t",
    "usize": "size_t",
    "bool": "bool",
}

# The header's names for structs that the sources name otherwise. Each must be met.
STRUCTS = {"WordArm64": "OpcodeArm64Answer"}

# The header's names for the sources' origins, and for what a number says of a register.
ORIGINS = {"Regular": "REGULAR_ENTRY", "Global": "GLOBAL_OPCODES", "Local": "LOCAL_OPCODES"}
STATES = {"Absent": "ABSENT", "Register": "NAMED", "Unknown": "UNKNOWN"}

# The only lines for the preprocessor, so that none hides a declaration.
DIRECTIVE = re.compile(
    r"#(include <\w+\.h>|ifndef BRASSPURSE_H|define BRASSPURSE_H|ifdef __cplusplus|endif"
    r'|define BRASSPURSE_(VERSION|VERSION_MAJOR|VERSION_MINOR|VERSION_PATCH) ("[0-9.]+"|[0-9]+))'
)


class Tokens:
    """A text's tokens, and where one stands in them."""

    def __init__(self, path, text, comments):
        self.path = path
        self.all = []
        pattern = re.compile(rf"({comments}|\s+)|\"[^\"]*\"|'\w+|\w+|->|::|.", re.S)
        line = 1
        for found in pattern.finditer(text):
            if found[1] is None:
                self.all.append((found[0], line))
            line += found[0].count("\n")
        self.at = 0

    def left(self):
        return self.at < len(self.all)

    def peek(self):
        return self.all[self.at][0] if self.left() else ""

    def take(self):
        token = self.peek()
        self.at += 1
        return token

    def try_take(self, *tokens):
        """Takes these tokens if they come next."""
        here = tuple(t for t, _ in self.all[self.at : self.at + len(tokens)])
        if here != tokens:
            return False
        self.at += len(tokens)
        return True

    def expect(self, token):
        if not self.try_take(token):
            self.fail(f"expected `{token}`")

    def word(self):
        if not re.fullmatch(r"\w+", self.peek()):
            self.fail("expected a name or a number")
        return self.take()

    def skip_past(self, closing):
        """Goes on behind the bracket that closes the one just taken."""
        opening = {"}": "{", ")": "(", "]": "["}[closing]
        depth = 1
        while depth:
            if not self.left():
                self.fail(f"no `{closing}`")
            token = self.take()
            depth += (token == opening) - (token == closing)

    def separated(self, closing, parse):
        """What `parse` gives, as often as it takes up to the closing bracket, between commas."""
        parsed = []
        while not self.try_take(closing):
            parsed.append(parse())
            if self.peek() != closing:
                self.expect(",")
        return parsed

    def fail(self, why):
        line = self.all[min(self.at, len(self.all) - 1)][1]
        sys.exit(f"{self.path.relative_to(ROOT)}:{line}: {why}, found `{self.peek()}`")


# Both sides become the same things: a function is (what it returns, its parameters), a struct is
# its fields; a parameter or field is (name, type), and a type is spelled as in C without the name.


def snake(name):
    return re.sub(r"(?<=[a-z0-9])(?=[A-Z])", "_", name).lower()


class Header:
    def __init__(self, path):
        text = path.read_text()
        self.functions, self.structs, self.enums, self.inlines = {}, {}, {}, {}
        self.versions = {}
        bare = re.sub(r"/\*.*?\*/", lambda c: re.sub(r"[^\n]", " ", c[0]), text, flags=re.S)
        for directive in re.findall(r"(?m)^[ \t]*(#.*?)[ \t]*$", bare):
            understood = DIRECTIVE.fullmatch(directive)
            if not understood:
                sys.exit(f"{path.relative_to(ROOT)}: not understood: {directive}")
            if understood[2]:
                self.versions.setdefault(understood[2], []).append(understood[3])
        self.tokens = Tokens(path, re.sub(r"(?m)^[ \t]*#.*$", "", bare), r"//[^\n]*")
        while self.tokens.left():
            self.item()

    def item(self):
        t = self.tokens
        if t.try_take("extern", '"C"', "{") or t.try_take("}"):
            return
        if t.try_take("enum"):
            name = t.word()
            t.expect("{")
            self.add(self.enums, name, t.separated("}", self.enumerator))
            t.expect(";")
            return
        if t.peek() == "struct" and t.all[t.at + 2][0] == "{":
            t.take()
            self.add(self.structs, t.word(), self.fields())
            return
        inline = t.try_take("static", "inline")
        returned = self.type()
        name = t.word()
        t.expect("(")
        parameters = t.separated(")", self.declared)
        if inline:
            t.expect("{")
            start = t.at
            t.skip_past("}")
            self.add(self.inlines, name, " ".join(token for token, _ in t.all[start : t.at]))
        else:
            t.expect(";")
            self.add(self.functions, name, (returned, parameters))

    def add(self, there, name, thing):
        if name in there:
            self.tokens.fail(f"{name} a second time")
        there[name] = thing

    def enumerator(self):
        name = self.tokens.word()
        self.tokens.expect("=")
        return name, int(self.tokens.word(), 0)

    def fields(self):
        t = self.tokens
        fields = []
        t.expect("{")
        while not t.try_take("}"):
            fields.append(self.declared())
            t.expect(";")
        t.expect(";")
        return fields

    def type(self):
        t = self.tokens
        const = "const " if t.try_take("const") else ""
        base = "struct " + t.word() if t.try_take("struct") else t.word()
        return const + base + (" *" if t.try_take("*") else "")

    def declared(self):
        t = self.tokens
        of = self.type()
        name = t.word()
        if t.try_take("["):
            of += f" [{t.word()}]"
            t.expect("]")
        return name, of


class Source:
    """One file of Rattle: its structs, its functions for C, and what it uses."""

    def __init__(self, path):
        self.path = path
        self.structs, self.functions, self.uses = {}, {}, {}
        self.tokens = t = Tokens(path, path.read_text(), r"//[^\n]*")
        attributes = []
        while t.left():
            if t.try_take("/", "*"):
                t.fail("a comment of that kind is not understood")
            elif t.try_take("#", "["):
                start = t.at
                t.skip_past("]")
                attributes.append("".join(a for a, _ in t.all[start : t.at - 1]))
            elif t.try_take("pub"):
                attributes.append("pub")
            elif t.try_take("ghost"):
                while t.left() and t.take() != ";":
                    pass
            elif t.try_take("use"):
                self.use()
            elif t.try_take("struct"):
                self.struct(attributes)
                attributes = []
            elif t.try_take("extern", '"C"', "fn"):
                self.function(attributes)
                attributes = []
            else:
                t.take()
                attributes = []

    def use(self):
        t = self.tokens
        path = [t.word()]
        while t.try_take("::"):
            if t.try_take("{"):
                for name in t.separated("}", t.word):
                    self.uses[name] = path + [name]
                t.expect(";")
                return
            path.append(t.word())
        t.expect(";")
        self.uses[path[-1]] = path

    def path_of(self, first):
        path = [first]
        while self.tokens.try_take("::"):
            path.append(self.tokens.word())
        return path

    def struct(self, attributes):
        t = self.tokens
        name = t.word()
        if not t.try_take("{"):  # a tuple: none goes to C
            return
        self.structs[name] = ("repr(C)" in attributes, t.separated("}", self.declared))

    def function(self, attributes):
        t = self.tokens
        name = t.word()
        if "unsafe(no_mangle)" not in attributes or "pub" not in attributes:
            t.fail(f"{name} is not `pub` with #[unsafe(no_mangle)]")
        t.expect("(")
        parameters = t.separated(")", self.declared)
        returned = self.type() if t.try_take("->") else "()"
        self.functions[name] = (returned, parameters)

    def declared(self):
        t = self.tokens
        t.try_take("pub")
        name = t.word()
        t.expect(":")
        return name, self.type()

    def type(self):
        """A name's path as a list, or (form, element, length)."""
        t = self.tokens
        form = ""
        if t.try_take("&"):
            if t.peek().startswith("'"):
                t.take()
            form = "&mut" if t.try_take("mut") else "&"
        if not t.try_take("["):
            if form:
                t.fail("a reference to something else than a slice or an array")
            return self.path_of(t.word())
        element = self.path_of(t.word())
        length = t.word() if t.try_take(";") else None
        t.expect("]")
        return form, element, length


class Library:
    """The functions of crates/brasspurse_c and the structs that they hand on, told as in C."""

    def __init__(self, crates):
        self.crates = crates
        self.files = {}
        self.functions, self.structs, self.defined = {}, {}, {}
        for path in sorted((crates / "brasspurse_c/src").rglob("*.rt")):
            source = self.file(path)
            for name, (returned, parameters) in source.functions.items():
                if name in self.functions:
                    sys.exit(f"{name} is in crates/brasspurse_c twice")
                told = [p for parameter in parameters for p in self.told(source, *parameter)]
                back = "void" if returned == "()" else self.plain(source, returned)
                self.functions[name] = (back, told)
        met = {name for _, name in self.defined.values()}
        for name in STRUCTS.keys() - met:
            sys.exit(f"the sources hand no struct {name} to C")

    def file(self, path):
        if path not in self.files:
            if not path.exists():
                sys.exit(f"there is no {path.relative_to(ROOT)}")
            self.files[path] = Source(path)
        return self.files[path]

    def told(self, source, name, of):
        """A parameter as C passes it."""
        if isinstance(of, list) or not of[0]:
            return [(name, self.plain(source, of))]
        form, element, length = of
        const = "const " if form == "&" else ""
        element = self.plain(source, element)
        if length is not None:
            return [(name, f"{const}{element} [{length}]")]
        return [(name, f"{const}{element} *"), (f"{name}_len", "size_t")]

    def plain(self, source, of):
        """A type that is no reference."""
        if isinstance(of, tuple):
            form, element, length = of
            if form or length is None:
                sys.exit(f"{source.path.relative_to(ROOT)}: a reference where none can be")
            return f"{self.plain(source, element)} [{length}]"
        if len(of) == 1 and of[0] in SCALARS:
            return SCALARS[of[0]]
        return "struct " + self.struct(source, of)

    def struct(self, source, path):
        if len(path) == 1:
            path = source.uses.get(path[0], path)
        if len(path) > 1:
            source = self.file(self.place(source, path[:-1]))
        name = path[-1]
        where = source.path.relative_to(ROOT)
        if name not in source.structs:
            sys.exit(f"{where}: there is no struct {name}")
        in_c = "brasspurse_" + snake(STRUCTS.get(name, name))
        if self.defined.setdefault(in_c, (source.path, name)) != (source.path, name):
            sys.exit(f"{in_c} stands for two structs")
        if in_c not in self.structs:
            as_c, fields = source.structs[name]
            if not as_c:
                sys.exit(f"{where}: {name} goes to C without #[repr(C)]")
            self.structs[in_c] = []  # no struct holds itself
            self.structs[in_c] = [(f, self.plain(source, of)) for f, of in fields]
        return in_c

    def place(self, source, modules):
        """The file of a path's modules."""
        if modules[0] == "crate":
            folder = self.crates / source.path.relative_to(self.crates).parts[0] / "src"
        else:
            folder = self.crates / modules[0] / "src"
        return folder / ("/".join(modules[1:]) + ".rt" if modules[1:] else "lib.rt")


def spelled(thing):
    if isinstance(thing, tuple):
        returned, parameters = thing
        return f"({spelled(parameters)}) -> {returned}"
    return ", ".join(f"{name}: {of}" for name, of in thing)


def differences(what, there, here, place):
    """Lines on what `here`, the header, has otherwise than `there`."""
    for name in sorted(there.keys() | here.keys()):
        if name not in here:
            yield f"{what} {name} is in {place}, and not in the header"
        elif name not in there:
            yield f"{what} {name} is in the header, and not in {place}"
        elif there[name] != here[name]:
            yield f"{what} {name} differs"
            yield f"  the header: {spelled(here[name])}"
            yield f"  {place}: {spelled(there[name])}"


def found(path, pattern):
    """What the pattern's first group has at its first place in a file."""
    place = re.search(pattern, path.read_text(), re.S | re.M) if path.exists() else None
    if not place:
        sys.exit(f"{path.relative_to(ROOT)}: there is nothing like {pattern}")
    return place[1]


def numbered(source, enum=None):
    """The numbers of an enum in a crate's source: of its variants, or, where no enum is named, what `fn number` gives; pairs of a name and a number."""
    if enum:
        body = found(source, rf"^pub enum {enum} {{(.*?)^}}$")
        found(source, r"fn number\(self\) -> u8\s+ensures {[^}]*}\s+{\s+(self as u8)\s+}")
    else:
        body = found(source, r"fn number\(self\)(.*?)^    }$")
    for name, number in re.findall(r"(\w+) = (\d+)," if enum else r"::(\w+)[^=\n]*=> (\d+),", body):
        yield name, int(number)


def origins(crates):
    """The sources' origins as the header names them; it has one more, for no function."""
    yield "ORIGIN_NONE", 0
    for name, number in numbered(crates / "entries/src/lib.rt", "Origin"):
        yield "ORIGIN_" + ORIGINS.get(name, snake(name).upper()), number


def states(crates):
    """What a number says of a register, as the header names it."""
    source = (crates / "brasspurse/src/words.rt").read_text()
    absent = found(crates / "brasspurse/src/words.rt", r"Named::(\w+) => RegisterAnswer::default\(\),")
    yield "REGISTER_" + STATES.get(absent, snake(absent).upper()), 0
    for name, number in re.findall(r"Named::(\w+)[^=]*=> RegisterAnswer {\s*state: (\d+),", source):
        yield "REGISTER_" + STATES.get(name, snake(name).upper()), int(number)


def refusals(crates):
    """The sources' refusals as the header names them: pairs of a name and a number."""
    for crate, enum in (("raw", "Error"), ("rules", None)):
        for name, number in numbered(crates / crate / "src/lib.rt", enum):
            yield "REFUSED_" + snake(name).upper(), number
    for name, crate, pattern in (
        ("NOT_REFUSED", "rules", r"fn number_of.*?Ok\(_\) => (\d+),"),
        ("REFUSED_INVALID_FRAMELESS", "permutation", r"^pub enum Error {[^}]*Encoding = (\d+),"),
        ("REFUSED_LIST", "permutation", r"^pub enum Error {[^}]*List = (\d+),"),
        ("REFUSED_INPUT_TOO_LONG", "lister", r"Refusal::TooLong => (\d+),"),
    ):
        yield name, int(found(crates / crate / "src/lib.rt", pattern))


def alone(there, here):
    """Lines on names with numbers that `there`, the sources, or `here`, an enum, alone has."""
    there = {("BRASSPURSE_" + name, number) for name, number in there}
    for name, number in sorted(there ^ set(here)):
        place = "the header" if (name, number) in here else "the sources"
        yield f"{name} = {number} is in {place} alone"


def wrong_refusals(header, crates):
    """Lines on refusals that the header has otherwise than the sources, or without their text."""
    here = header.enums["brasspurse_refusal"]
    yield from alone(refusals(crates), here)
    body = header.inlines["brasspurse_refusal_text"]
    texts = re.findall(r'case (\w+) : return ("[^"]+") ;', body)
    if [name for name, _ in texts] != [name for name, _ in here]:
        yield "brasspurse_refusal_text has not one case for each refusal, in their order"
    if len({text for _, text in texts}) != len(texts):
        yield "brasspurse_refusal_text has a text twice"


def wrong_versions(header):
    """Lines on versions that are not the header's."""
    numbers = {"VERSION_MAJOR": [], "VERSION_MINOR": [], "VERSION_PATCH": []}
    version = header.versions.get("VERSION", [""])[0].strip('"')
    for name, number in zip(numbers, version.split(".")):
        numbers[name].append(number)
    if header.versions != {"VERSION": [f'"{version}"'], **numbers}:
        yield f"the header's version is told as {header.versions}"
    for name, pattern in (
        ("rust/Cargo.toml", r'^version = "(.*?)"$'),
        ("CHANGELOG.md", r"^## (\S+)"),
    ):
        other = found(ROOT / name, pattern)
        if other != version:
            yield f"the header's version is {version}, that of {name} {other}"


def symbols(path):
    names = (line.split()[0] for line in Path(path).read_text().splitlines() if line.split())
    return {name: None for name in names if name.startswith("brasspurse_")}


def main():
    if len(sys.argv) not in (1, 3):
        sys.exit(__doc__.strip())
    header, library = Header(HEADER), Library(CRATES)
    names = dict.fromkeys(header.functions)
    lines = [
        *differences("function", library.functions, header.functions, "the sources"),
        *differences("struct", library.structs, header.structs, "the sources"),
        *alone(origins(CRATES), header.enums["brasspurse_origin"]),
        *alone(states(CRATES), header.enums["brasspurse_register_state"]),
        *wrong_refusals(header, CRATES),
        *wrong_versions(header),
    ]
    for path, place in zip(sys.argv[1:], ("the library", "what the test calls")):
        lines += differences("function", symbols(path), names, place)
    for line in lines:
        print(line)
    if lines:
        sys.exit(1)
    functions, structs = len(header.functions), len(header.structs)
    numbers = len(header.enums["brasspurse_refusal"])
    print(
        f"{functions} functions, {structs} structs and {numbers} refusals of the header are the "
        f"library's"
    )


if __name__ == "__main__":
    main()
