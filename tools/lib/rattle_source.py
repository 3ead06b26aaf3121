"""Reads Rattle sources: the items of a crate with their documentation and contracts, the lines of
code, and the definitions of its spec files. It is not a program."""
import functools
import re

from lib.command import TOP, Stopped

CLAUSE = re.compile(r"^\s*(requires|ensures\*?)\s+(?:(\w+)\s+)?\{")
MEMBER = re.compile(r"^    ghost (\w+) = \{")
DEFINITION = re.compile(
    r"^ *(?:(?:pub|abbrev|unfoldable|opaque) )*(?:(record|data) )?(?:pub )?"
    r"([A-Za-z_◌][^\s:({]*)\s*(?:[({].*)?(?::|$)"
)
# A definition, and not a lemma or a field. An opaque one has no word beside `pub`, but its type
# ends with `Type 0`.
KIND = re.compile(
    r"^ *(?:pub (?:record|data)\b|(?:abbrev|unfoldable|opaque) pub\b|pub \w+ :.*\bType 0$)"
)
# Ghost members that only the compiler asks for: laws that every implementation has.
LAWS = {"laws", "total", "matches_partial_cmp", "matches_eq", "respects_eq", "from"}


class Item:
    """A function, type, macro or implementation of a source file."""

    def __init__(self, kind, name, owner, text, before):
        self.kind = kind  # fn, struct, enum, trait, macro, impl
        self.name = name
        self.owner = owner  # the head of the `impl` or the `trait` around a function, or ""
        self.text = text  # the lines that the reference quotes
        self.docs = before.docs
        self.attributes = before.attributes
        self.clauses = []  # (kind, label, text)
        self.public = False  # of a function, a type or a macro
        # The lines of the item, counted from 1: the first one of its attributes, that of its name
        # and the last one.
        self.first = self.start = self.end = 0

    @property
    def hidden(self):
        """Whether the documentation leaves the item out."""
        return any("doc(hidden)" in text for text in self.attributes)

    @property
    def path(self):
        """The name of the item, after the name of its type."""
        kind = type_of(self.owner)
        return f"{kind}::{self.name}" if kind else self.name

    @property
    def signature(self):
        """The signature on one line, without the contract."""
        head = []
        for line in self.text:
            if CLAUSE.match(line) or line.strip().startswith("//"):
                break
            head.append(line.strip())
        line = re.sub(r"\s+", " ", " ".join(head)).strip()
        line = re.sub(r"([(<]) ", r"\1", line)
        return re.sub(r",? ([)>])", r"\1", line).rstrip(" {;")


class Before:
    """What stands before an item: its documentation and its attributes."""

    def __init__(self):
        self.docs, self.attributes, self.first = [], [], 0


def type_of(owner):
    """The name of the type that an `impl` line is about, or that of a trait."""
    if not owner:
        return ""
    rest = re.sub(r"^(unsafe )?(impl|trait)\s*", "", owner)
    rest = after_angle(rest).strip()
    rest = rest.rpartition(" for ")[2]
    found = re.match(r"(?:&(?:'\w+ )?(?:mut )?)?((?:io::)?\w+)", rest)
    return found.group(1) if found else ""


def trait_of(owner):
    """The trait of an `impl` line, or an empty text."""
    rest = after_angle(re.sub(r"^(unsafe )?impl\s*", "", owner)).strip()
    return rest.rpartition(" for ")[0]


def after_angle(text):
    """What follows the `<..>` at the start of a text."""
    if not text.startswith("<"):
        return text
    depth = 0
    for at, char in enumerate(text):
        depth += (char == "<") - (char == ">" and text[at - 1] not in "-=")
        if depth == 0:
            return text[at + 1 :]
    return ""


def first_sentence(lines):
    """The first sentence of a comment."""
    text = " ".join(line.strip() for line in lines).strip()
    found = re.match(r"(.*?[.!?])(?:\s+[A-Z`'(]|\s*$)", text)
    return found.group(1) if found else text


def head_of(path):
    """The first sentence of the comment at the head of a file."""
    mark = "//!" if path.suffix == ".rt" else "--"
    lines = []
    for line in path.read_text(encoding="utf-8").splitlines():
        if not line.startswith(mark):
            if lines:
                break
            continue
        if line[len(mark) :].strip() == "" and lines:
            break
        lines.append(line[len(mark) :])
    return first_sentence(lines)


def dedent(lines):
    """The lines without the indentation that all share."""
    widths = [len(line) - len(line.lstrip()) for line in lines if line.strip()]
    cut = min(widths, default=0)
    return [line[cut:].rstrip() for line in lines]


FUNCTION = re.compile(r"\s*(?:pub(?:\([a-z]+\))? )?(?:const )?(?:unsafe )?fn (\w+)")
TYPE = re.compile(r"(?:pub(?:\([a-z]+\))? )?(struct|enum|trait) (\w+)")


@functools.cache
def items_of(path):
    """The functions, types, macros and implementations of a source file, in its order."""
    lines = path.read_text(encoding="utf-8").splitlines()
    items, before, owner, at = [], Before(), "", 0
    while at < len(lines):
        line, start = lines[at], at
        bare = line.strip()
        if bare.startswith("///"):
            before.docs.append(bare[3:].removeprefix(" "))
            at += 1
            continue
        if bare.startswith("#["):
            while at + 1 < len(lines) and not lines[at].rstrip().endswith("]"):
                at += 1
            at += 1
            before.attributes.append(" ".join(part.strip() for part in lines[start:at]))
            before.first = before.first or start + 1
            continue
        item = None
        if line.startswith(("impl", "unsafe impl")):
            head, at = until_body(lines, at)
            owner = re.sub(r"\s+", " ", " ".join(head)).strip().rstrip("{} ").strip()
            item = Item("impl", trait_of(owner), owner, dedent(head), before)
            if lines[at - 1].rstrip().endswith("{}"):
                owner = ""
        elif MEMBER.match(line) and items and owner.startswith(("impl", "unsafe impl")):
            taken, at = braces(lines, at)
            last = [item for item in items if item.kind == "impl"][-1]
            last.clauses.append(("ghost", MEMBER.match(line).group(1), taken))
            before = Before()
            continue
        elif FUNCTION.match(line) and len(line) - len(line.lstrip()) in (0, 4):
            item, at = function(lines, at, owner if line.startswith("    ") else "", before)
        elif TYPE.match(line):
            kind, name = TYPE.match(line).groups()
            ends = r"^}\s*$|.*\{\}$" if kind == "trait" else r"^(}|.*[;])\s*$|.*\{\}$"
            while not re.match(ends, lines[at]) and at + 1 < len(lines):
                at += 1
            at += 1
            body = lines[start:at]
            if kind == "trait":
                head = " ".join(part.strip() for part in until_body(lines, start)[0])
                owner, at = head[head.index("trait") :].rstrip("{} "), start + 1
            item = Item(kind, name, "", visible(body) if kind == "struct" else body, before)
            item.public = line.startswith("pub ")
        elif line.startswith("macro_rules!"):
            name = re.match(r"macro_rules! (\w+)", line).group(1)
            at = last_line(lines, at)
            item = Item("macro", name, "", lines[start:at], before)
            item.public = "#[macro_export]" in item.attributes
        else:
            if line == "}":
                owner = ""
            at += 1
            if bare and not bare.startswith("//"):
                before = Before()
            continue
        item.first, item.start = before.first or start + 1, start + 1
        item.end = last_line(lines, start)
        items.append(item)
        before = Before()
    return items


def last_line(lines, at):
    """The last line of the item that begins at a line, counted from 1."""
    indent = lines[at][: len(lines[at]) - len(lines[at].lstrip())]
    for end in range(at, len(lines)):
        text = lines[end].rstrip()
        if text == indent + "}" or re.match(rf"{indent}(?! |//|\))(.*(;|\{{\}}))$", text):
            return end + 1
        if end == at and text.endswith("}") and text.count("{") == text.count("}"):
            return end + 1
    return len(lines)


def visible(body):
    """A struct without its private fields."""
    opened = next((at for at, line in enumerate(body) if line.rstrip().endswith("{")), None)
    if opened is None or body[-1] != "}":
        return body
    kept, docs, private = body[: opened + 1], [], False
    for line in body[opened + 1 : -1]:
        if line.strip().startswith("//"):
            docs.append(line)
        elif line.startswith("    pub "):
            kept += docs + [line]
            docs = []
        else:
            private, docs = True, []
    return kept + (["    // private fields"] if private else []) + ["}"]


def until_body(lines, at):
    """The lines of a head up to the one that opens its body."""
    taken = []
    while at < len(lines):
        taken.append(lines[at])
        at += 1
        if taken[-1].rstrip().endswith(("{", "{}")):
            break
    return taken, at


LITERAL = re.compile(r"""'(?:[^'\\]|\\.)'|"(?:[^"\\]|\\.)*\"""")


def without_literals(line):
    """The line, with a mark in the place of each character of a literal text or character."""
    return LITERAL.sub(lambda found: "_" * len(found.group()), line)


def braces(lines, at):
    """The text between the first brace of a line and the one that closes it."""
    taken, depth = [], 0
    start = lines[at].index("{")
    while at < len(lines):
        text = lines[at]
        bare = without_literals(text)
        for place in range(start, len(text)):
            depth += (bare[place] == "{") - (bare[place] == "}")
            if depth == 0 and bare[place] == "}":
                taken.append(text[start : place + 1])
                whole = re.sub(r"\s+", " ", " ".join(part.strip() for part in taken))
                return whole[1:-1].strip(), at + 1
        taken.append(text[start:])
        start, at = 0, at + 1
    raise Stopped(f"a brace is not closed: {taken[0].strip()}")


def function(lines, at, owner, before):
    """A function with its contract, and the line after its head."""
    start, clauses = at, []
    while at + 1 < len(lines):
        line = lines[at]
        found = CLAUSE.match(line)
        if found:
            text, at = braces(lines, at)
            clauses.append((found.group(1), found.group(2) or "", text))
            if lines[at - 1].rstrip().endswith("};"):
                # A method of a trait without a body ends with its last clause.
                at -= 1
                break
            continue
        if line.strip() in ("{", "{}") or line.rstrip().endswith((" {", ";", "}")):
            break
        at += 1
    text = dedent(lines[start : at + (0 if lines[at].strip() in ("{", "{}") else 1)])
    if text and text[-1].endswith((" {", " {}", ";")):
        text[-1] = re.sub(r"( \{\}?|;)$", "", text[-1])
    item = Item("fn", FUNCTION.match(lines[start]).group(1), owner, text, before)
    item.public = lines[start].lstrip().startswith("pub fn")
    item.clauses = clauses
    return item, at + 1


def function_at(path, number):
    """The name of the function around a line of a source file, or `-`."""
    around = [it for it in items_of(path) if it.kind == "fn" and it.start <= number <= it.end]
    return around[-1].name if around else "-"


IMPORT = re.compile(r"(?:ghost |pub(?:\([a-z]+\))? )?use [^;]*;")


@functools.cache
def code_of(path):
    """The numbered lines of a source file without comments, imports and contracts."""
    found, depth, imports = [], 0, False
    for number, line in enumerate(path.read_text(encoding="utf-8").splitlines(), 1):
        bare = line.strip()
        if bare.startswith("//"):
            continue
        if depth or CLAUSE.match(line):
            text = without_literals(line)
            depth += text.count("{") - text.count("}")
            continue
        if imports or IMPORT.match(bare + ";"):
            # An import ends at its semicolon, which need not be on its first line.
            _, imports, rest = bare.partition(";")
            imports, line = not imports, rest
        if line.strip():
            found.append((number, line))
    return found


def imports_of(path):
    """The imports of a source file, each on one line."""
    text = re.sub(r"(?m)//.*$", "", path.read_text(encoding="utf-8"))
    found = re.findall(r"^\s*((?:pub(?:\([a-z]+\))? )?use [^;]*;)", text, re.M)
    return [re.sub(r"\s+", " ", it) for it in found]


def exported(crate):
    """The names that the root of a crate exports, without those that its documentation hides."""
    names, hidden = set(), False
    for line in (
        (TOP / "crates" / crate / "src" / "lib.rt").read_text(encoding="utf-8").splitlines()
    ):
        found = re.match(r"pub use (?:[\w:]+::)?\{?([^};]*)", line)
        if found and not hidden:
            names |= {name.strip().split("::")[-1] for name in found.group(1).split(",")}
        hidden = line.strip() == "#[doc(hidden)]"
    return names


def crates():
    """The names of the folders in crates/."""
    return sorted(path.name for path in (TOP / "crates").iterdir() if path.is_dir())


def sources(crate):
    """The source files of a crate of the repository: a module before its submodules."""
    root = TOP / "crates" / crate / "src"
    return sorted(root.rglob("*.rt"), key=lambda path: path.relative_to(root).with_suffix("").parts)


@functools.cache
def definitions_in(path):
    """The definitions of a spec file. Each name has the file, a comment and lines.

    The lines of a definition in a `module _ (..) where` begin with this head, which has parameters
    of it. Its comment ends with the comment of the head, which says what these are.
    """
    lines, comment, heads, found = path.read_text(encoding="utf-8").splitlines(), [], [], {}
    for at, line in enumerate(lines):
        bare = line.strip()
        if bare.startswith("--"):
            comment.append(bare[2:].removeprefix(" ").rstrip())
            continue
        depth = len(line) - len(line.lstrip())
        if bare and not re.match(r"[(){}]", bare):
            heads = [head for head in heads if head[0] < depth]
        if bare.startswith("module _"):
            end = at
            while not lines[end].rstrip().endswith(" where"):
                end += 1
            heads.append((depth, lines[at : end + 1], paragraphs(comment)))
        match = DEFINITION.match(line)
        if match and KIND.match(line) and comment:
            end = at
            while end < len(lines) and lines[end].strip():
                end += 1
            around = [text for _, head, _ in heads for text in head]
            said = [text for _, _, about in heads for text in about]
            found.setdefault(
                match.group(2),
                (path, paragraphs(comment) + said, dedent(around + lines[at:end])),
            )
        comment = []
    return found


USE = re.compile(r"^\s*(?:ghost |pub )?use ([\w.]+)\.\{([^}]*)\}", re.M)


@functools.cache
def imported(path):
    """The words that the `use` lines of a file import, each with its module and its name there."""
    found = {}
    for module, words in USE.findall(path.read_text(encoding="utf-8")):
        for word in words.split(","):
            name, _, alias = word.strip().partition(" as ")
            found[alias or name] = (module, name)
    return found


@functools.cache
def spec_file(module):
    """The spec file of a module of this repository, or None.

    A crate may export a module of another crate under its last name."""
    if not re.match(r"Rattle\.\w+\.specs\.\w", module):
        return None
    _, crate, _, *parts = module.split(".")
    root = TOP / "crates" / crate / "specs"
    path, lib = root.joinpath(*parts).with_suffix(".antt"), root / "Lib.antt"
    if path.exists() or not lib.exists():
        return path if path.exists() else None
    for other in re.findall(r"^pub use ([\w.]+)$", lib.read_text(encoding="utf-8"), re.M):
        if other.endswith(f".{parts[0]}"):
            return spec_file(".".join([other, *parts[1:]]))
    return None


def definition(path, word):
    """The file and the name of the definition that a word of a file means, or None.

    It is that of the file itself, or the one that the `use` line names, if it is of this
    repository."""
    if path.suffix == ".antt" and word in definitions_in(path):
        return path, word
    module, name = imported(path).get(word, ("", word))
    place = spec_file(module)
    return (place, name) if place and name in definitions_in(place) else None


def paragraphs(comment):
    """The lines of a comment, joined to one text for each paragraph."""
    return [text.strip() for text in re.split(r"\n\n+", "\n".join(comment)) if text.strip()]
