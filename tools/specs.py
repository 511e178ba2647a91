"""What tools/definitions knows of the crates: their definitions, their public calls, and what rests on what.

A definition stands in a file of a folder specs/, at its left edge or in a `module` block; its sentence is the comment
above it. A call is a public function or a method of a public trait; its clauses name definitions. Names are followed
through the `use` lines of a file. A word is no citation where it is a field (behind a dot, or before `=`), or where
something else is bound by that name (an argument, a binder, an earlier field of the same record).
"""
import re
from dataclasses import dataclass, field
from pathlib import Path

TOP = Path(__file__).resolve().parent.parent

NAME = r"[^\s(){}\[\],;.]+"
HEAD = re.compile(r"(\s*)(?:(?:abbrev|unfoldable) (?:pub )?|pub (?:record|data) )(\S+)")
BLOCK = re.compile(r"(\s*)module \S+ .*where$")
USE = re.compile(r"^\s*(?:ghost )?(?:pub )?use Rattle\.(\S+?)\.\{(.*?)\};?\s*$")
WHOLE_USE = re.compile(r"^\s*(?:ghost )?use Rattle\.(pm_\w+\.specs\.\w+) as (\w+);?\s*$")
FUNCTION = re.compile(r"^(\s*)(pub )?fn (\w+)")
# a binder with its type, a binder of λ, one of `let`, a field that gets a value, what stands behind a dot, any other word
TOKEN = re.compile(
    rf"[({{]\s*(?P<typed>(?:[^\s(){{}}\[\],;.:]+ )+):\s|λ (?P<plain>{NAME}(?: {NAME})*)\.|let (?P<let>{NAME}) =\s"
    rf"|(?P<field>{NAME})\s+=\s|(?<=\S)\.(?P<dot>{NAME})|(?P<word>{NAME})"
)
TYPE = re.compile(r"^pub (?:struct|enum) (\w+)")


@dataclass
class Definition:
    module: str
    name: str
    sentence: str
    text: list = field(default_factory=list)
    around: str = ""
    cites: set = field(default_factory=set)
    types: set = field(default_factory=set)

    @property
    def key(self):
        return self.module, self.name


@dataclass
class Call:
    """A public function, or a method of a public trait, with the definitions that its clauses name."""

    crate: str
    path: str
    name: str
    sentence: str
    is_law: bool
    cites: set


@dataclass
class RustType:
    """A public type of the code, as its source has it."""

    crate: str
    path: str
    name: str
    sentence: str
    text: list


class Scope:
    """What the names of a file stand for: definitions of this repository, and types of its code."""

    def __init__(self, text):
        self.names, self.modules, self.types = {}, {}, {}
        for line in text.splitlines():
            if whole := WHOLE_USE.match(line):
                self.modules[whole[2]] = whole[1]
            if declared := re.match(r"\s*(?:ghost )?use Rattle\.(pm_\w+)\.specs\.declared\.(?:\w+\.)*(\w+)[. ]", line):
                for local in re.findall(r" as (\w+)", line) + [declared[2]]:
                    self.types[local] = (declared[1], declared[2])
            used = USE.match(line)
            if not used or not re.match(r"pm_\w+\.specs\.(?!declared)", used[1]):
                continue
            for item in used[2].split(","):
                name, _, local = item.strip().partition(" as ")
                self.add((local or name).strip(), (used[1], name.strip()))

    def add(self, name, key):
        """An operator stands in a text by its sign; a line of a `do` has the sign `←` in place of its `>>=`."""
        for word in [name] + [sign for sign in name.split("◌") if "◌" in name and sign]:
            self.names[word] = key
            if word == ">>=":
                self.names["←"] = key

    def cited(self, text, bound=()):
        """The definitions that a text names, where these names and what the text binds stand for something else."""
        bound, found, last = set(bound), set(), ""
        for token in TOKEN.finditer(text):
            for group in ("typed", "plain", "let"):
                bound |= set((token[group] or "").split())
            if token["dot"] and last in self.modules:
                found.add((self.modules[last], token["dot"]))
            last = token["word"] or ""
            if last in self.names and last not in bound:
                found.add(self.names[last])
        return found

    def of_definition(self, one):
        """The definitions that this one names: in its head, then equation by equation, or field by field."""
        head, *lines = [it.strip() for it in statements(one.text)]
        bound = bound_in(one.around)
        found = self.cited(one.around) | self.cited(head.replace(one.name, "", 1), bound)
        for line in lines:
            if "record " in head.split(one.name)[0]:
                name, _, kind = re.sub(r"^pub ", "", line).partition(" : ")
                found |= self.cited(kind, bound | bound_in(head))
                bound |= set(name.split())
            elif "data " in head.split(one.name)[0]:
                found |= self.cited(line.partition(" : ")[2], bound | bound_in(head))
            else:
                left, _, right = line.partition(" =")
                words = set(re.findall(NAME, left))
                small = {it for it in words if it[0].islower() and f"{it}." not in left}
                found |= self.cited(" ".join(words - small - {one.name}), bound) | self.cited(right, bound | small)
        return found - {one.key}

    def typed(self, one):
        """The types of the code that a definition names."""
        words = set(re.findall(NAME, one.around + "\n" + "\n".join(one.text)))
        return {self.types[word] for word in words if word in self.types}


def bound_in(text):
    """The names that the binders of a text bind."""
    return {name for token in TOKEN.finditer(text) for name in (token["typed"] or "").split()}


def statements(lines):
    """A definition's head, equations and fields, each in one piece."""
    edge, found = indent(lines[0]), []
    of_record = re.match(r"\s*pub (record|data) ", lines[0])
    begin = edge + 2 if of_record else edge
    for line in lines:
        goes_on = indent(line) > begin or (of_record and indent(line) == edge + 4)
        if found and (goes_on or line.strip()[0] in "})"):
            found[-1] += "\n" + line
        else:
            found.append(line)
    return found


def indent(line):
    return len(line) - len(line.lstrip())


def read_specs(path):
    """The definitions of one file, in order, those of its `module` blocks too."""
    crate = path.relative_to(TOP).parts[1]
    module = ".".join((crate, "specs") + path.relative_to(TOP / "crates" / crate / "specs").with_suffix("").parts)
    text = path.read_text()
    found, comment, blocks = [], [], []
    current = None
    for line in text.splitlines():
        if line.strip().startswith("--"):
            comment.append(line)
            continue
        head, block = HEAD.match(line), BLOCK.match(line)
        if line.strip():
            blocks = [it for it in blocks if indent(it) < indent(line)]
        if head:
            sentence = " ".join(it.strip()[2:].strip() for it in comment)
            current = Definition(module, head[2], sentence, [line], "\n".join(blocks))
            found.append(current)
        elif block:
            blocks, current = blocks + [line], None
        elif re.match(r"use |pub mod|mod |-- ", line):
            current = None
        elif line.strip() and current:
            current.text += comment + [line]
        comment = []
    scope = Scope(text)
    for one in found:
        scope.add(one.name, one.key)
    for one in found:
        one.cites, one.types = scope.of_definition(one), scope.typed(one)
    return found


def read_types(path):
    """The public types of one file of code."""
    crate, lines, found = path.relative_to(TOP).parts[1], path.read_text().splitlines(), []
    for at, line in enumerate(lines):
        if named := TYPE.match(line):
            end = at
            while not re.search(r"[;}]$", lines[end]) or indent(lines[end]):
                end += 1
            place = str(path.relative_to(TOP))
            found.append(RustType(crate, place, named[1], sentence_above(lines, at), lines[at : end + 1]))
    return found


def sentence_above(lines, at):
    """The comment for readers above a line, in one piece."""
    begin = at
    while begin and lines[begin - 1].strip().startswith(("///", "#[")):
        begin -= 1
    said = [it.strip()[3:].strip() for it in lines[begin:at] if it.strip().startswith("///")]
    return " ".join(said)


def exported_by(crate):
    """The names that a crate's root hands out, and the modules that it hands out whole."""
    root = TOP / "crates" / crate / "src" / "lib.rt"
    text = root.read_text() if root.exists() else ""
    names = {name for used in re.findall(r"pub use ([^;]*);", text) for name in re.findall(r"\w+", used)}
    return names, set(re.findall(r"pub mod (\w+);", text)) | {"lib"}


def clauses_of(lines, at):
    """A function's text from its name to the line that opens its body, or to its end where that is in sight before."""
    head, depth = [], 0
    for line in lines[at:]:
        if head and depth == 0 and re.match(r"\s*($|\{|\}|//|#\[|(?:pub )?fn )", line):
            break
        head.append(line)
        depth += line.count("{") + line.count("(") - line.count("}") - line.count(")")
        if depth == 0 and line.rstrip().endswith(";"):
            break
    return "\n".join(head)


def read_calls(path):
    """The public functions and the trait methods of one file, but those of tests."""
    if path.name.endswith("tests.rt"):
        return []
    crate = path.relative_to(TOP).parts[1]
    text = path.read_text()
    scope, lines, calls, owner = Scope(text), text.splitlines(), [], ""
    handed_out, whole = exported_by(crate)
    of_trait = False
    for at, line in enumerate(lines):
        opened = re.match(r"(?:pub )?(impl|trait)\b(?:<[^>]*>)?\s*(.*?)\s*(?:\{|$)", line)
        if opened:
            owner = opened[2].split(" for ")[-1].split("<")[0].split(":")[0].strip()
            of_trait = opened[1] == "trait" or " for " in opened[2]
        function = FUNCTION.match(line)
        if not function or not (function[2] or (function[1] and of_trait)):
            continue
        owner = owner if function[1] else ""
        if path.stem not in whole and (owner or function[3]) not in handed_out:
            continue
        name = f"{owner}::{function[3]}" if owner else function[3]
        calls.append(call_of(crate, path, name, scope, lines, at))
    return calls


def call_of(crate, path, name, scope, lines, at):
    """The call whose function begins at this line."""
    signature, *clauses = re.split(r"\n\s*(?=(?:ensures|requires)\b)", clauses_of(lines, at))
    is_law = "->" not in signature and "&mut" not in signature and "self" not in signature
    arguments = set(re.findall(r"(\w+): ", signature)) | {"result", "self"}
    cites = set()
    for clause in clauses:
        cites |= scope.cited(re.sub(r"^(ensures|requires) *\w*", "", clause), arguments)
    return Call(crate, str(path.relative_to(TOP)), name, sentence_above(lines, at), is_law, cites)


def closure(starts, below):
    """What these rest on, themselves included."""
    reached, open_ = set(), list(starts)
    while open_:
        key = open_.pop()
        if key not in reached:
            reached.add(key)
            open_ += below(key)
    return reached


def in_order(names, below):
    """These names, each after those that it stands on, else as they come."""
    done = []

    def visit(name, path):
        if name in done or name in path:
            return
        for other in below(name):
            visit(other, path + [name])
        done.append(name)

    for name in names:
        visit(name, [])
    return done


class Tree:
    """All definitions, types and public calls. The program's promise rests on the definitions that these calls name."""

    def __init__(self, main_calls):
        rows = [line for line in (TOP / "crates.txt").read_text().splitlines() if line and not line.startswith("#")]
        self.below = {line.split(":")[0]: line.split(":")[1].split() for line in rows}
        self.crates = in_order(self.below, lambda crate: [one for one in self.below[crate] if one in self.below])
        self.definitions, self.calls, self.types = {}, [], {}
        for crate in self.crates:
            folder = TOP / "crates" / crate
            for path in sorted(folder.glob("specs/**/*.antt")):
                self.definitions |= {one.key: one for one in read_specs(path)}
            for path in sorted(folder.glob("src/**/*.rt")):
                self.calls += read_calls(path)
                self.types |= {(one.crate, one.name): one for one in read_types(path)}
        for one in [*self.definitions.values(), *self.calls]:
            one.cites = {self.resolved(key) for key in one.cites} & self.definitions.keys()
        self.main = {key for call in self.calls if (call.crate, call.name) in main_calls for key in call.cites}
        self.sort_out()

    def resolved(self, key):
        """The definition of a name; of a data type's variant that type's."""
        above = tuple(key[0].rsplit(".", 1))
        return above if key not in self.definitions and above in self.definitions else key

    def sort_out(self):
        """Into what is believed for the program's promise, what other calls speak of, and the words of laws."""
        cites = lambda key: self.definitions[key].cites
        self.above = {}
        for one in self.definitions.values():
            for key in one.cites:
                self.above.setdefault(key, []).append(one.key)
        self.believed = closure(self.main, cites)
        said = {key for call in self.calls if not call.is_law for key in call.cites}
        self.others = closure(said, cites) - self.believed
        laws = {key for call in self.calls if call.is_law for key in call.cites}
        self.stated = closure(laws, cites) - self.believed - self.others

    def modules(self, keys):
        """The files of these definitions, top down: each before those that it rests on."""
        files = {}
        for key in keys:
            files.setdefault(key[0], set()).update(self.definitions[key].cites)
        ordered = []
        size = {it: len(closure(files[it], lambda key: self.definitions[key].cites)) for it in files}
        for crate in self.crates:
            of_crate = sorted((it for it in files if it.split(".")[0] == crate), key=lambda it: (size[it], it))
            ordered += in_order(of_crate, lambda module: sorted({key[0] for key in files[module]} & set(of_crate)))
        return ordered[::-1]

    def types_of(self, keys):
        """The types of the code that these definitions name, and those that they are made of, from the highest crate."""
        starts = {key for one in keys for key in self.definitions[one].types if key in self.types}
        found = closure(starts, self.parts_of)
        return sorted(found, key=lambda key: (-self.crates.index(key[0]), self.types[key].path, key[1]))

    def parts_of(self, key):
        """The types that a type's source names: of its own crate, else of the only crate below that has one."""
        found = []
        for word in set(re.findall(r"\w+", "\n".join(self.types[key].text))) - {key[1]}:
            crates = [it for it in [key[0], *self.below[key[0]]] if (it, word) in self.types]
            found += [(crates[0], word)] if crates else []
        return found
