"""Scenarios and their sequential run, read and made after docs/MODEL.md alone.

A second, independent program: nothing here comes from the crates, so where both print the same, each is checked by the
other. `tools/simulate` is its command; other tools read scenarios with it. It needs Python 3.11 (`tomllib`).
"""
import heapq
import re
import tomllib

LEAST, MOST = -(2**63), 2**63 - 1
LATEST = 1_000_000_000_000
LONGEST = 4_194_304
STEPS = 1_000_000
MANY = {"clp": 64, "class": 64, "var": 4096, "agent": 1024}
WORDS = set("reg read scan let if else end set wait now me min max".split())
FIELDS = ("n", "i", "x", "y", "sx", "sy")
OPERATIONS = ("+", "-", "*", "/", "%", "min", "max", "<", "<=", "==", "!=")
TOKEN = re.compile(r"(-?[0-9]+)|([a-z][a-z0-9_]*)|(==|!=|<=|[()\[\].,=<+\-*/%])")
NAME = re.compile(r"[a-z][a-z0-9_]{0,31}\Z")
FIT = "if, else and end do not match"


class Refusal(Exception):
    """A scenario is refused: the text after `pdesmas: `, and for tools what it is about."""

    def __init__(self, text, **about):
        super().__init__(text)
        self.text = text
        self.about = about


class Fault(Exception):
    """A line of a rule is refused: the fault, the place among the line's tokens (or None), what was wanted there."""

    def __init__(self, text, place=None, wanted=""):
        super().__init__(text)
        self.text, self.place, self.wanted = text, place, wanted


def held(number):
    """The number, or the end of 64 bits that it is past."""
    return LEAST if number < LEAST else MOST if number > MOST else number


# ---- A rule's text


def tokens_of(line):
    """The tokens of a line as (text, column); a Fault at the column of what is no token."""
    line = line.removesuffix("\r").split("#", 1)[0]
    found, at = [], 0
    while at < len(line):
        if line[at] in " \t":
            at += 1
            continue
        match = TOKEN.match(line, at)
        if not match:
            raise Fault("not a statement", None, ("column", at))
        number, name, _ = match.groups()
        after = line[match.end() : match.end() + 1]
        bad_number = number and (not LEAST <= int(number) <= MOST or re.match("[A-Za-z_]", after))
        if bad_number or (name and len(name) > 32):
            raise Fault("not a statement", None, ("column", at))
        found.append((match.group(), at))
        at = match.end()
    return found


class Reader:
    """Reads one line's tokens from left to right."""

    def __init__(self, tokens):
        self.tokens, self.at = [text for text, _ in tokens], 0

    def fail(self, wanted):
        raise Fault("not a statement", self.at, wanted)

    def peek(self):
        return self.tokens[self.at] if self.at < len(self.tokens) else None

    def take(self, wanted):
        if self.peek() != wanted:
            self.fail(f"`{wanted}`")
        self.at += 1

    def name(self, what):
        token = self.peek()
        if token is None or not NAME.match(token):
            self.fail(what)
        self.at += 1
        return token, self.at - 1

    def number(self):
        token = self.peek()
        if token is None or not re.match(r"-?[0-9]", token):
            self.fail("a number")
        self.at += 1
        return int(token)

    def expression(self):
        token = self.peek()
        if token is not None and re.match(r"-?[0-9]", token):
            return ("number", self.number())
        if token == "(":
            self.at += 1
            left = self.expression()
            operation = self.peek()
            if operation not in OPERATIONS:
                self.fail("an operation")
            self.at += 1
            right = self.expression()
            self.take(")")
            return (operation, left, right)
        if token in WORDS and token not in ("now", "me"):
            self.fail("an expression")
        name, place = self.name("an expression")
        if self.peek() == "." and name not in WORDS:
            self.at += 1
            field = self.peek()
            if field not in FIELDS:
                self.fail("a field: n, i, x, y, sx or sy")
            self.at += 1
            return ("field", name, FIELDS.index(field), place)
        return (name,) if name in ("now", "me") else ("register", name, place)

    def place(self):
        name, place = self.name("a variable or a class")
        if self.peek() != "[":
            return ("variable", name, place)
        self.at += 1
        index = self.expression()
        self.take("]")
        return ("member", name, index, place)

    def pair(self):
        self.take("=")
        x = self.expression()
        self.take(",")
        return x, self.expression()

    def declared(self, what):
        name, place = self.name(what)
        if name in WORDS:
            self.at = place
            self.fail(f"{what} that is no word of the language")
        return name, place

    def statement(self, version):
        word = self.peek()
        self.at += 1
        if word == "reg":
            name = self.declared("a register's name")
            made = ("reg", name, self.number())
        elif word == "read":
            name = self.declared("a name for the sense")
            self.take("=")
            made = ("read", name, self.place())
        elif word == "scan":
            name = self.declared("a name for the sense")
            self.take("=")
            of = self.name("a class")
            made = ("scan", name, of, [self.expression() for _ in range(4)])
        elif word == "let":
            name = self.name("a register")
            self.take("=")
            made = ("let", name, self.expression())
        elif word == "set" or (word == "add" and version == 2):
            place = self.place()
            made = (word, place, *self.pair())
        elif word in ("wait", "if"):
            made = (word, self.expression())
        elif word in ("else", "end"):
            made = (word,)
        else:
            self.at = 0
            self.fail("a statement's first word")
        if self.at < len(self.tokens):
            self.fail("the line's end")
        return made


class Rule:
    """An agent's program: registers, senses and the body as a tree of statements."""

    def __init__(self, scenario, text):
        self.scenario, self.registers, self.senses = scenario, {}, {}
        self.first, self.asked, self.body = [], [], []
        self.lines, self.stage = [], 0
        opened, parts = [], [self.body]
        pieces = text.split("\n")
        for number, piece in enumerate(pieces, 1):
            try:
                tokens = self.tokens_in(piece, number)
                if not tokens:
                    continue
                made = Reader(tokens).statement(scenario.version)
                self.in_order(made[0])
                self.nested(made[0], opened)
                self.counted(made[0])
                self.named(made)
                self.lines.append((number, made))
                self.keep(made, number, opened, parts)
            except Fault as fault:
                fault.line, fault.rule = number, self
                raise
        if opened:
            fault = Fault(FIT)
            fault.line, fault.rule = len(pieces) + 1, self
            raise fault

    def tokens_in(self, piece, number):
        if number > 200 and piece.removesuffix("\r").split("#", 1)[0].strip(" \t"):
            raise Fault("too long", None, "at most 200 lines")
        tokens = tokens_of(piece)
        if len(tokens) > 64:
            raise Fault("too long", 64, f"at most 64 tokens in a line, here are {len(tokens)}")
        return tokens

    def in_order(self, word):
        stage = 0 if word == "reg" else 1 if word in ("read", "scan") else 2
        if stage < self.stage:
            raise Fault("out of order", 0)
        self.stage = stage

    def nested(self, word, opened):
        """`opened` has for each open if whether its else was there."""
        if word == "if" and len(opened) == 8:
            raise Fault(FIT, 0, "at most 8 open ifs")
        if word in ("else", "end") and not opened:
            raise Fault(FIT, 0, "an open if")
        if word == "else" and opened[-1]:
            raise Fault(FIT, 0, "one else in an if")

    def counted(self, word):
        if word == "reg" and len(self.registers) == 16:
            raise Fault("too long", 0, "at most 16 registers")
        if word in ("read", "scan") and len(self.senses) == 16:
            raise Fault("too long", 0, "at most 16 senses")

    def named(self, made):
        if made[0] in ("reg", "read", "scan"):
            name, place = made[1]
            if name in self.registers or name in self.senses:
                raise Fault("a name is declared twice", place)
        if made[0] == "let":
            self.known(made[1][0] in self.registers, made[1][1], "register")
        if made[0] == "scan":
            self.known(made[2][0] in self.scenario.classes, made[2][1], "class")
        trees = {"reg": [], "read": made[2:], "scan": made[3:] and made[3], "let": made[2:]}
        for tree in trees.get(made[0], made[1:]):
            self.names_in(tree)

    def known(self, is_known, place, kind):
        if not is_known:
            raise Fault("an unknown name", place, kind)

    def names_in(self, tree):
        kind = tree[0]
        if kind == "register":
            self.known(tree[1] in self.registers, tree[2], "register")
        elif kind == "field":
            self.known(tree[1] in self.senses, tree[3], "sense")
        elif kind == "variable":
            self.known(tree[1] in self.scenario.variables, tree[2], "variable")
        elif kind == "member":
            self.known(bool(self.scenario.classes.get(tree[1])), tree[3], "class")
            self.names_in(tree[2])
        elif kind in OPERATIONS:
            self.names_in(tree[1])
            self.names_in(tree[2])

    def keep(self, made, number, opened, parts):
        word = made[0]
        if word == "reg":
            self.registers[made[1][0]] = len(self.first)
            self.first.append(made[2])
        elif word in ("read", "scan"):
            self.senses[made[1][0]] = len(self.asked)
            self.asked.append(made)
        elif word == "if":
            parts[-1].append(("if", made[1], [], [], number))
            opened.append(False)
            parts.append(parts[-1][-1][2])
        elif word == "else":
            opened[-1] = True
            parts.pop()
            parts.append(parts[-1][-1][3])
        elif word == "end":
            opened.pop()
            parts.pop()
        else:
            parts[-1].append((*made, number))


# ---- A scenario


class Scenario:
    """A scenario that is read: names, places, first values, rules."""

    def __init__(self, document):
        self.document = document
        self.version = self.version_of(document)
        keys = [("version", int, True), ("horizon", "count", True), ("move_after", "count", False)]
        keys += [("clp", self.clp, False), ("class", self.class_, False), ("agent", self.agent, False)]
        self.table(document, "", keys)
        self.horizon = document["horizon"]
        self.parts = {kind: document.get(kind, []) for kind in ("clp", "class", "agent")}
        self.parts["var"] = [var for it in self.parts["class"] for var in it.get("var", [])]
        self.variables, self.classes, self.class_of = {}, {}, []
        number = 0
        for it in self.parts["class"]:
            members = list(range(number, number + len(it.get("var", []))))
            self.classes.setdefault(it["name"], members)
            self.class_of += [(it["name"], place) for place in range(len(members))]
            number += len(members)
        for number, it in enumerate(self.parts["var"]):
            self.variables.setdefault(it["name"], number)
        self.rules = []
        for number, it in enumerate(self.parts["agent"]):
            try:
                self.rules.append(Rule(self, it["rule"]))
            except Fault as fault:
                text = f"scenario: rule of agent {number}: line {fault.line}: {fault.text}"
                raise Refusal(text, agent=number, fault=fault, scenario=self) from None
        self.together()

    # The document and its keys

    def version_of(self, document):
        if "version" not in document:
            raise Refusal("scenario: version is missing")
        if type(document["version"]) is not int:
            raise Refusal("scenario: version is of the wrong kind")
        if document["version"] not in (1, 2):
            raise Refusal("scenario: the version is not known")
        return document["version"]

    def table(self, table, path, keys):
        strange = sorted((key for key in table if key not in [key for key, _, _ in keys]), key=str.encode)
        if strange:
            shown = re.sub(r"[\x00-\x1f\x7f]", "?", path + strange[0])
            raise Refusal(f"scenario: {shown} is not a key", path=path, key=strange[0], keys=[it[0] for it in keys])
        for key, kind, required in keys:
            if key not in table:
                if required:
                    raise Refusal(f"scenario: {path}{key} is missing", path=path, key=key)
                continue
            value = table[key]
            right = {int: type(value) is int, str: type(value) is str, "count": type(value) is int and value >= 0}
            if not right.get(kind, type(value) is list):
                raise Refusal(f"scenario: {path}{key} is of the wrong kind", path=path, key=key, value=value, kind=kind)
            if kind in right:
                continue
            for number, it in enumerate(value):
                if type(it) is not dict:
                    text = f"scenario: {path}{key}[{number}] is of the wrong kind"
                    raise Refusal(text, path=path, key=key, value=it, kind=dict)
            for number, it in enumerate(value):
                kind(it, f"{path}{key}[{number}].")

    def clp(self, table, path):
        self.table(table, path, [("name", str, True), ("parent", str, False)])

    def class_(self, table, path):
        self.table(table, path, [("name", str, True), ("var", self.var, False)])

    def var(self, table, path):
        self.table(table, path, [("name", str, True), ("at", str, True), ("x", int, False), ("y", int, False)])

    def agent(self, table, path):
        keys = [("name", str, True), ("home", str, True), ("start", "count", False), ("rule", str, True)]
        self.table(table, path, keys)

    # The parts together

    def together(self):
        for kind, most in MANY.items():
            if len(self.parts[kind]) > most or (kind == "clp" and not self.parts[kind]):
                raise Refusal(f"scenario: limit of {kind}", limit=kind, count=len(self.parts[kind]))
        if max([self.horizon] + [it.get("start", 0) for it in self.parts["agent"]]) > LATEST:
            raise Refusal("scenario: limit of time", limit="time")
        for kind in MANY:
            for number, it in enumerate(self.parts[kind]):
                if not NAME.match(it["name"]):
                    raise Refusal(f"scenario: {kind} {number}: not a name", kind=kind, number=number)
        for kind in MANY:
            names = {}
            for number, it in enumerate(self.parts[kind]):
                if it["name"] in names:
                    text = f"scenario: {kind} {number}: the name stands twice"
                    raise Refusal(text, kind=kind, number=number, first=names[it["name"]])
                names[it["name"]] = number
        self.tree()
        places = {it["name"] for it in self.parts["clp"]}
        for kind, key in (("var", "at"), ("agent", "home")):
            for number, it in enumerate(self.parts[kind]):
                if it[key] not in places:
                    text = f"scenario: {kind} {number}: its place is not a clp"
                    raise Refusal(text, kind=kind, number=number, key=key)

    def tree(self):
        parents = {it["name"]: it.get("parent") for it in self.parts["clp"]}
        root = None
        for number, it in enumerate(self.parts["clp"]):
            seen, name = set(), it["name"]
            while parents.get(name) is not None and name not in seen:
                seen.add(name)
                name = parents[name]
            parent = it.get("parent")
            is_root = parent is None and root is None
            if is_root:
                root = number
            if not is_root and (parent not in parents or name in seen):
                raise Refusal(f"scenario: clp {number}: not in the tree", kind="clp", number=number, root=root)


# Texts in quotes, comments, braces, commas before a closing brace, line feeds.
TEXTS = re.compile(
    r'"""(?:[^\\]|\\.)*?"{3,5}|"(?:[^"\\\n]|\\.)*"'
    r"|'''.*?'{3,5}|'[^'\n]*'"
    r"|#[^\n]*|[{}]|,(?=(?:\s|#[^\n]*\n)*\})|\n",
    re.S,
)


def older(text):
    """The text of a TOML 1.1 document as one of TOML 1.0, which is what Python reads: an inline table stands in one
    line and has no comma at its end (the line feeds follow it, so that later lines keep their numbers), and the escapes
    \\e and \\xHH are written out."""
    made, last, depth, feeds, end = [], 0, 0, 0, " "
    for found in TEXTS.finditer(text):
        piece = found.group()
        made.append(text[last : found.start()])
        end = made[-1].rstrip()[-1:] or end
        last = found.end()
        if piece[0] == '"':
            piece = re.sub(r"\\(?:e|x([0-9A-Fa-f]{2})|.)", escaped, piece, flags=re.S)
        elif piece in "{}":
            depth = max(depth + (1 if piece == "{" else -1), 0)
            if depth == 0:
                piece, feeds = piece + "\n" * feeds, 0
        elif depth and piece[0] in "#\n," and may_break(end, piece, text[last:]):
            feeds += piece == "\n"
            piece = " "
        made.append(piece)
        end = piece.rstrip()[-1:] or end
    return "".join(made) + text[last:]


def may_break(end, piece, after):
    """Whether a new line may begin here in an inline table: beside a brace or a comma. (A comma: at the end alone.)"""
    return piece == "," or end in "{," or re.match(r"(?:\s|#[^\n]*\n)*[,}]", after) is not None


def escaped(found):
    if found.group() == "\\e":
        return "\\u001b"
    return f"\\u00{found.group(1)}" if found.group(1) else found.group()


def document_of(text):
    """The document of a TOML text, 1.0 or 1.1."""
    try:
        return tomllib.loads(text)
    except tomllib.TOMLDecodeError:
        return tomllib.loads(older(text))


def read(data):
    """The scenario of these bytes; a Refusal says why there is none."""
    if len(data) > LONGEST:
        raise Refusal("the scenario is longer than 4194304 bytes")
    try:
        document = document_of(data.decode("utf-8"))
    except (UnicodeDecodeError, tomllib.TOMLDecodeError, RecursionError) as error:
        raise Refusal("scenario: not a TOML document", toml=error) from None
    if not all(map(is_held, numbers_in(document))):
        raise Refusal("scenario: not a TOML document", toml="a number past 64 bits")
    return Scenario(document)


def is_held(number):
    return LEAST <= number <= MOST


def numbers_in(value):
    """All integers in a document."""
    if isinstance(value, (dict, list)):
        for it in value.values() if isinstance(value, dict) else value:
            yield from numbers_in(it)
    elif type(value) is int:
        yield value


# ---- The run


class Step:
    """What one step did: time, agent, answers as lists of (variable, x, y), changes as {variable: (word, x, y)}."""

    def __init__(self, time, agent):
        self.time, self.agent, self.answers, self.changes, self.wait = time, agent, [], {}, 1
        self.lines = {}


class Run:
    """The sequential run of a scenario: `steps` gives each step in its order, and changes `values` as it goes."""

    def __init__(self, scenario):
        self.scenario = scenario
        self.values = [(it.get("x", 0), it.get("y", 0)) for it in scenario.parts["var"]]
        self.registers = [list(rule.first) for rule in scenario.rules]

    def steps(self):
        agents = self.scenario.parts["agent"]
        times = [(it.get("start", 0), number) for number, it in enumerate(agents)]
        times = [it for it in times if it[0] <= self.scenario.horizon]
        heapq.heapify(times)
        while times:
            time, agent = heapq.heappop(times)
            step = self.step(time, agent)
            for number, (word, x, y) in step.changes.items():
                old = self.values[number]
                self.values[number] = (x, y) if word == "set" else (held(old[0] + x), held(old[1] + y))
            then = held(time + max(step.wait, 1))
            if then <= self.scenario.horizon:
                heapq.heappush(times, (then, agent))
            yield step

    def step(self, time, agent):
        step, rule = Step(time, agent), self.scenario.rules[agent]
        views = []
        for asked in rule.asked:
            hits = self.read(asked, step, views) if asked[0] == "read" else self.scan(asked, step, views)
            step.answers.append([(number, *self.values[number]) for number in hits])
            views.append(self.view(step.answers[-1]))
        self.walk(rule.body, step, views)
        return step

    def read(self, asked, step, views):
        return [self.place(asked[2], step, views)]

    def scan(self, asked, step, views):
        x0, x1, y0, y1 = [self.value(it, step, views) for it in asked[3]]
        members = self.scenario.classes[asked[2][0]]
        return [it for it in members if x0 <= self.values[it][0] <= x1 and y0 <= self.values[it][1] <= y1]

    def view(self, answer):
        """The fields of an answer, in the order of FIELDS."""
        if not answer:
            return (0, -1, 0, 0, 0, 0)
        sx = sy = 0
        for _, x, y in answer:
            sx, sy = held(sx + x), held(sy + y)
        number, x, y = answer[0]
        return (len(answer), self.scenario.class_of[number][1], x, y, sx, sy)

    def place(self, tree, step, views):
        if tree[0] == "variable":
            return self.scenario.variables[tree[1]]
        members = self.scenario.classes[tree[1]]
        return members[self.value(tree[2], step, views) % len(members)]

    def walk(self, body, step, views):
        for it in body:
            word = it[0]
            if word == "let":
                rule = self.scenario.rules[step.agent]
                self.registers[step.agent][rule.registers[it[1][0]]] = self.value(it[2], step, views)
            elif word in ("set", "add"):
                number = self.place(it[1], step, views)
                change = (word, self.value(it[2], step, views), self.value(it[3], step, views))
                step.lines.setdefault(number, []).append((it[4], it[1], change))
                step.changes[number] = change
            elif word == "wait":
                step.wait = self.value(it[1], step, views)
            else:
                self.walk(it[2] if self.value(it[1], step, views) != 0 else it[3], step, views)

    def value(self, tree, step, views):
        kind = tree[0]
        if kind == "number":
            return tree[1]
        if kind == "now":
            return step.time
        if kind == "me":
            return step.agent
        if kind == "register":
            return self.registers[step.agent][self.scenario.rules[step.agent].registers[tree[1]]]
        if kind == "field":
            return views[self.scenario.rules[step.agent].senses[tree[1]]][tree[2]]
        return operated(kind, self.value(tree[1], step, views), self.value(tree[2], step, views))


def operated(operation, a, b):
    """What the operation gives of two numbers."""
    if operation == "+":
        return held(a + b)
    if operation == "-":
        return held(a - b)
    if operation == "*":
        return held(a * b)
    if operation in ("/", "%"):
        if b == 0:
            return 0
        quotient = abs(a) // abs(b) * (1 if (a < 0) == (b < 0) else -1)
        return held(quotient) if operation == "/" else a - quotient * b
    if operation in ("min", "max"):
        return min(a, b) if operation == "min" else max(a, b)
    return int({"<": a < b, "<=": a <= b, "==": a == b, "!=": a != b}[operation])


def line_of(scenario, step):
    """The step's line in the trace."""
    names = [it["name"] for it in scenario.parts["var"]]
    parts = [str(step.time), scenario.parts["agent"][step.agent]["name"]]
    for answer in step.answers:
        parts.append("[" + ";".join(f"{names[number]}={x},{y}" for number, x, y in answer) + "]")
    for number in sorted(step.changes):
        word, x, y = step.changes[number]
        parts.append(f"{names[number]}{':=' if word == 'set' else '+='}{x},{y}")
    return " ".join(parts)
