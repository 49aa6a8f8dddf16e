"""Reads what files declare for other languages: the exported functions of Rattle, the functions in Rust's extern "C" blocks and those of a C header,
with their structs. Types are told in Rust's words. What cannot be read is an error and never left out."""
import re
from typing import Dict, List, NamedTuple, Optional

PREFIX = "recon_"

C_WORDS = {"u8": "uint8_t", "u16": "uint16_t", "u32": "uint32_t", "u64": "uint64_t", "i8": "int8_t", "i16": "int16_t", "i32": "int32_t",
           "i64": "int64_t", "usize": "size_t", "isize": "ptrdiff_t", "bool": "bool", "f32": "float", "f64": "double", "()": "void"}
OF_C = {c: rust for rust, c in C_WORDS.items()}


class Type(NamedTuple):
    """A number, a bool or a struct by its name, or a pointer, a slice or an array of these."""
    name: str
    form: str = "value"  # value, const, mut (pointers), slice const, slice mut, array
    length: Optional[int] = None  # of an array, and of the array behind a pointer


class Item(NamedTuple):
    """A parameter or a field, and where its text stands."""
    name: str
    type: Type
    start: int
    end: int


class Function(NamedTuple):
    name: str
    items: List[Item]
    result: Item
    start: int
    end: int


class Struct(NamedTuple):
    name: str
    items: List[Item]
    start: int
    end: int


class Source:
    """What one file declares."""

    def __init__(self, path, text, language):
        self.path, self.text, self.language = path, text, language
        self.functions: Dict[str, Function] = {}
        self.structs: Dict[str, Struct] = {}

    def add(self, to, entry):
        if entry.name in to:
            raise Unreadable(f"{self.at(entry.start)}: {entry.name} is declared twice")
        to[entry.name] = entry

    def at(self, offset):
        return f"{self.path}:{self.text.count(chr(10), 0, offset) + 1}"

    def shown(self, entry):
        return " ".join(self.text[entry.start:entry.end].split())


class Unreadable(Exception):
    """A declaration that this script cannot read."""


# Reading: words with their places, so that a damage can be made at a parameter.

COMMENT = re.compile(r'"(?:\\.|[^"\\])*"|\'(?:\\.|[^\'\\\n])\'|//[^\n]*|/\*.*?\*/', re.S)
WORD = re.compile(r'"(?:\\.|[^"\\])*"|\'[a-z]\w*\b(?!\')|\w+|->|::|[^\s\w]')


def blank(text):
    return re.sub(r"[^\n]", " ", text)


def without_comments(text):
    return COMMENT.sub(lambda found: blank(found[0]) if found[0][0] == "/" else found[0], text)


class Words:
    """The words of a text, read from the first to the last."""

    def __init__(self, source, text):
        self.source = source
        self.found = [(m.start(), m.end(), m[0]) for m in WORD.finditer(text)]
        self.i = 0

    def peek(self, ahead=0):
        return self.found[self.i + ahead][2] if self.i + ahead < len(self.found) else ""

    def start(self):
        return self.found[self.i][0] if self.i < len(self.found) else len(self.source.text)

    def behind(self):
        return self.found[self.i - 1][1]

    def take(self):
        word = self.peek()
        if not word:
            self.fail("more text")
        self.i += 1
        return word

    def seek(self, *words):
        """To the next of these words, or to the end."""
        while self.i < len(self.found) and self.found[self.i][2] not in words:
            self.i += 1
        return self.i < len(self.found)

    def accept(self, *words):
        if self.peek() == words[0] and all(self.peek(k) == word for k, word in enumerate(words)):
            self.i += len(words)
            return True
        return False

    def expect(self, *words):
        for word in words:
            if not self.accept(word):
                self.fail(f"`{word}`")

    def name(self):
        word = self.take()
        if not re.fullmatch(r"[A-Za-z_]\w*", word):
            self.i -= 1
            self.fail("a name")
        return word

    def fail(self, wanted):
        raise Unreadable(f"{self.source.at(self.start())}: cannot be read: {wanted} is expected at `{self.peek()}`")

    def skip_group(self):
        """Past the bracket here and the one that closes it."""
        opening = self.take()
        closing = {"(": ")", "{": "}", "[": "]"}[opening]
        while not self.accept(closing):
            if self.peek() in ("(", "{", "["):
                self.skip_group()
            else:
                self.take()

    def attributes(self):
        """Past Rust's attributes, none of which may set a condition."""
        while self.accept("#"):
            if self.peek(1) == "cfg":
                self.fail("a declaration for every compiler")
            self.skip_group()

    def listed(self, closing, read):
        """What `read` reads, between commas, up to the closing bracket."""
        items = []
        while not self.accept(closing):
            items.append(read(self))
            if self.peek() != closing:
                self.expect(",")
        return items

    def length(self, constants):
        word = self.take()
        value = constants.get(word, word)
        if not value.isdigit():
            self.i -= 1
            self.fail("a number, or a constant that is one,")
        return int(value)


# Rattle and Rust.

def constants_of(text):
    return {m[1]: m[2].replace("_", "") for m in re.finditer(r"\bconst (\w+): \w+ = ([\d_]+);", text)}


def rust_name(words):
    name = words.name()
    while words.accept("::"):
        name = words.name()
    return name


def rust_type(words, constants):
    if words.accept("(", ")"):
        return Type("()")
    if words.accept("*"):
        form = words.take()
        if form not in ("const", "mut"):
            words.fail("`const` or `mut`")
        if not words.accept("["):
            return Type(rust_name(words), form)
        return rust_array(words, constants, form)
    if words.accept("&"):
        if words.peek().startswith("'"):
            words.take()
        form = "mut" if words.accept("mut") else "const"
        if not words.accept("["):
            return Type(rust_name(words), form)
        return rust_array(words, constants, form)
    if words.accept("["):
        return rust_array(words, constants, "array")
    return Type(rust_name(words))


def rust_array(words, constants, form):
    name = rust_name(words)
    if words.accept("]") and form != "array":
        return Type(name, "slice " + form)
    words.expect(";")
    length = words.length(constants)
    words.expect("]")
    return Type(name, form, length)


def rust_item(constants):
    def read(words):
        start = words.start()
        if words.accept("pub") and words.peek() == "(":
            words.skip_group()
        name = words.name()
        words.expect(":")
        found = rust_type(words, constants)
        return Item(name.lstrip("_"), found, start, words.behind())
    return read


def rust_signature(words, constants, start):
    """A function from its name up to its result."""
    name = words.name()
    if words.accept("<"):
        words.listed(">", Words.take)
    words.expect("(")
    items = words.listed(")", rust_item(constants))
    result = Item("", Type("()"), words.behind(), words.behind())
    if words.accept("->"):
        at = words.start()
        result = Item("", rust_type(words, constants), at, words.behind())
    return Function(name, items, result, start, words.behind())


def rust_struct(words, constants, start):
    """A struct behind `#[repr`."""
    words.expect("(", "C", ")", "]")
    words.attributes()
    if words.accept("pub") and words.peek() == "(":
        words.skip_group()
    words.expect("struct")
    name = words.name()
    words.expect("{")
    items = words.listed("}", rust_item(constants))
    return Struct(name, items, start, words.behind())


def opened(path, text, language):
    """A file of which nothing is read yet, its words, and the constants in it."""
    source, bare = Source(path, text, language), without_comments(text)
    return source, Words(source, bare), constants_of(bare)


def read_rattle(path, text):
    """The exported functions and their structs."""
    source, words, constants = opened(path, text, "Rattle")
    while words.seek("#", "extern"):
        start = words.start()
        if words.accept("#", "[", "unsafe", "("):
            words.expect("no_mangle", ")", "]", "pub", "extern", '"C"', "fn")
            function = rust_signature(words, constants, start)
            if words.peek() not in ("requires", "ensures", "{"):
                words.fail("a contract or a body")
            source.add(source.functions, function)
        elif words.accept("#", "[", "repr"):
            source.add(source.structs, rust_struct(words, constants, start))
        elif words.peek() == "extern":
            words.fail("#[unsafe(no_mangle)] right before a function for other languages")
        else:
            words.take()
    return source


def read_rust(path, text, whole):
    """The functions in extern "C" blocks, and the structs. Where the file need not declare all calls, functions of other libraries may stand there
    as well."""
    source, words, constants = opened(path, text, "Rust")
    while words.seek("#", "extern"):
        start = words.start()
        if words.accept("#", "[", "repr"):
            if whole or words.peek(1) == "C":
                source.add(source.structs, rust_struct(words, constants, start))
        elif words.accept("extern", '"C"', "{") or words.accept("extern", "{"):
            rust_block(words, constants, whole)
        elif words.peek() == "extern" and (whole or words.peek(2) == "{"):
            words.fail('a block extern "C" { .. }')
        else:
            words.take()
    return source


def rust_block(words, constants, whole):
    while not words.accept("}"):
        words.attributes()
        start = words.start()
        words.accept("pub")
        words.expect("fn")
        if whole or words.peek().startswith(PREFIX):
            function = rust_signature(words, constants, start)
            words.expect(";")
            words.source.add(words.source.functions, function._replace(end=words.behind()))
        else:
            words.seek(";")
            words.expect(";")


# C.

def without_directives(source, text):
    """The text without what only the preprocessor reads and without what only C++ reads; the constants; and where text stands under a condition."""
    lines, constants, doubtful, stack = [], {}, [], []
    at, rest = 0, False
    for line in text.splitlines(keepends=True):
        directive = rest or line.lstrip().startswith("#")
        if directive:
            if not rest:
                follow_condition(source, at, line, stack)
                defined = re.match(r"\s*#\s*define\s+(\w+)\s+\(?(\d+)[uUlL]*\)?\s*$", line)
                if defined:
                    constants[defined[1]] = defined[2]
            rest = line.rstrip().endswith("\\")
        elif "other" in stack:
            doubtful.append((at, at + len(line)))
        lines.append(blank(line) if directive or "C++" in stack else line)
        at += len(line)
    return "".join(lines), constants, doubtful


def follow_condition(source, at, line, stack):
    words = line.replace("#", " ").split()
    if not words:
        return
    if words[0] in ("if", "ifdef", "ifndef"):
        guard = words[0] == "ifndef" and not stack and re.search(r"#\s*define\s+" + words[1] + r"\s*\n", source.text)
        stack.append("guard" if guard else "C++" if words[:2] == ["ifdef", "__cplusplus"] else "other")
    elif words[0] in ("else", "elif") and stack:
        stack[-1] = "C" if stack[-1] == "C++" and words[0] == "else" else "other"
    elif words[0] == "endif" and stack:
        stack.pop()
    elif words[0] in ("else", "elif", "endif"):
        raise Unreadable(f"{source.at(at)}: cannot be read: #{words[0]} without an #if")


def c_item(constants, in_struct):
    """A parameter or a field."""
    def read(words):
        start = words.start()
        const = words.accept("const")
        words.accept("struct")
        name = words.name()
        const = words.accept("const") or const
        pointer = words.accept("*")
        own = words.name()
        length = None
        if words.accept("["):
            length = words.length(constants)
            words.expect("]")
        if pointer and length is not None or const and not pointer and length is None:
            words.fail("a value, a pointer or an array")
        form = "value" if not pointer and length is None else "array" if in_struct and not pointer else "const" if const else "mut"
        return Item(own, Type(OF_C.get(name, name), form, length), start, words.behind())
    return read


def c_fields(words, constants):
    items = []
    while not words.accept("}"):
        items.append(c_item(constants, True)(words))
        words.expect(";")
    return items


def c_struct(words, constants, start, typedef):
    name = "" if words.peek() == "{" else words.name()
    words.expect("{")
    items = c_fields(words, constants)
    if typedef:
        name = words.name()
    words.expect(";")
    return Struct(name, items, start, words.behind())


def c_function(words, constants):
    start = words.start()
    words.accept("struct")
    result = words.name()
    end = words.behind()
    name = words.name()
    words.expect("(")
    if not words.accept("void", ")"):
        items = words.listed(")", c_item(constants, False))
    else:
        items = []
    words.expect(";")
    return Function(name, items, Item("", Type(OF_C.get(result, result)), start, end), start, words.behind())


def skip_static(words):
    """A function with its body, or a constant."""
    while words.peek() not in ("{", ";", "="):
        if words.peek() == "(":
            words.skip_group()
        else:
            words.take()
    if words.peek() == "{":
        words.skip_group()
        return
    while not words.accept(";"):
        if words.peek() in ("{", "("):
            words.skip_group()
        else:
            words.take()


def read_c(path, text):
    source = Source(path, text, "C")
    bare, constants, doubtful = without_directives(source, without_comments(text))
    words = Words(source, bare)
    constants.update({m[1]: m[2] for m in re.finditer(r"\b(\w+)\s*=\s*(\d+)\b", bare)})
    while words.peek():
        start = words.start()
        if words.peek() in ("static", "_Static_assert"):
            skip_static(words)
            continue
        if words.peek() == "enum":
            skip_static(words)
            words.expect(";")
            continue
        if words.accept("typedef", "struct"):
            source.add(source.structs, c_struct(words, constants, start, True))
        elif words.peek() == "struct" and words.peek(2) == "{":
            words.take()
            source.add(source.structs, c_struct(words, constants, start, False))
        else:
            source.add(source.functions, c_function(words, constants))
        if any(a <= start < b for a, b in doubtful):
            raise Unreadable(f"{source.at(start)}: cannot be read: declared under an #if, so for some compilers only")
    return source
