"""States of the two definitions in the notation of K, as Kore JSON: `imp("n = X ; ~> .", n="X", sum="0", where=["X >= 0"])`.

A name in capitals is a variable of whole numbers; `E:AExp` is one of another sort, and each other name of a program is an
identifier."""

import re

TOKEN = re.compile(r"\s*(~>|<=|>=|==|!=|&&|\d+|[A-Za-z]\w*(?::[A-Z]\w*)?|\S)")
OF_SYNTAX = "'IMP-SYNTAX'Unds'"
THREE = "'Unds'AExp'Unds'AExp"
SUM = {it: f"Lbl'Unds{name}UndsUnds{OF_SYNTAX}AExp{THREE}" for it, name in zip("+-*/", ["Plus", "", "Star", "Slsh"])}
SUM["-"] = f"Lbl'Unds'-'UndsUnds{OF_SYNTAX}AExp{THREE}"
LESS = f"Lbl'Unds-LT-EqlsUndsUnds{OF_SYNTAX}BExp{THREE}"
NUMBERS = {
    "+": "Lbl'UndsPlus'Int'Unds'",
    "-": "Lbl'Unds'-Int'Unds'",
    "*": "Lbl'UndsStar'Int'Unds'",
    "/": "Lbl'UndsSlsh'Int'Unds'",
    "<=": "Lbl'Unds-LT-Eqls'Int'Unds'",
    "<": "Lbl'Unds-LT-'Int'Unds'",
    ">=": "Lbl'Unds-GT-Eqls'Int'Unds'",
    ">": "Lbl'Unds-GT-'Int'Unds'",
    "==": "Lbl'UndsEqlsEqls'Int'Unds'",
    "!=": "Lbl'UndsEqlsSlshEqls'Int'Unds'",
}


def sort(name):
    return {"args": [], "name": "Sort" + name, "tag": "SortApp"}


def application(name, *arguments, sorts=()):
    return {"args": list(arguments), "name": name, "sorts": [sort(it) for it in sorts], "tag": "App"}


def variable(name, of):
    return {"name": "Var" + name, "sort": sort(of), "tag": "EVar"}


def literal(text, of):
    return {"sort": sort(of), "tag": "DV", "value": text}


def injected(low, high, term):
    return term if low == high else application("inj", term, sorts=(low, high))


def kseq(items, rest):
    for it in reversed(items):
        rest = application("kseq", it, rest)
    return rest


def wrapped(tree):
    return {"format": "KORE", "term": tree, "version": 1}


def conjunction(parts):
    return parts[0] if len(parts) == 1 else {"patterns": parts, "sort": sort("GeneratedTopCell"), "tag": "And"}


class Reader:
    """Each reader gives a sort and a term of it."""

    def __init__(self, text):
        self.tokens, self.at = TOKEN.findall(text), 0

    def peek(self):
        return self.tokens[self.at] if self.at < len(self.tokens) else ""

    def take(self, *wanted):
        found = self.peek()
        if wanted and found not in wanted:
            raise ValueError(f"{wanted} wanted, found {self.tokens[self.at:]}")
        self.at += 1
        return found

    def is_next(self, *wanted):
        return self.peek() in wanted

    def as_sort(self, of, found):
        return injected(found[0], of, found[1])

    # ---- programs

    def program(self):
        self.take("int")
        names = []
        while not self.is_next(";"):
            names.append(literal(self.take(), "Id"))
            self.take(",") if self.is_next(",") else None
        self.take(";")
        label = "Lbl'Stop'List'LBraQuotUndsCommUndsUnds'IMP-SYNTAX'Unds'Ids'Unds'Id'Unds'Ids'QuotRBraUnds'Ids"
        listed = application(label)
        for it in reversed(names):
            listed = application(f"Lbl'UndsCommUndsUnds{OF_SYNTAX}Ids'Unds'Id'Unds'Ids", it, listed)
        body = self.as_sort("Stmt", self.statements())
        return "Pgm", application(f"Lblint'UndsSClnUndsUnds{OF_SYNTAX}Pgm'Unds'Ids'Unds'Stmt", listed, body)

    def statements(self):
        first = self.statement()
        if self.is_next("", "}", "~>"):
            return first
        two = [self.as_sort("Stmt", it) for it in (first, self.statements())]
        return "Stmt", application(f"Lbl'UndsUndsUnds{OF_SYNTAX}Stmt'Unds'Stmt'Unds'Stmt", *two)

    def statement(self):
        if self.is_next("{"):
            return self.block()
        word = self.take()
        if word in ("if", "while"):
            self.take("(")
            parts = [self.as_sort("BExp", self.truth())]
            self.take(")")
            parts.append(self.as_sort("Block", self.block()))
            if word == "while":
                return "Stmt", application(f"Lblwhile'LParUndsRParUndsUnds{OF_SYNTAX}Stmt'Unds'BExp'Unds'Block", *parts)
            self.take("else")
            parts.append(self.as_sort("Block", self.block()))
            return "Stmt", application(f"Lblif'LParUndsRParUnds'else'UndsUnds{OF_SYNTAX}Stmt'Unds'BExp'Unds'Block'Unds'Block", *parts)
        if ":" in word and self.peek() != "=":
            return word.split(":")[1], variable(*word.split(":"))
        name = variable(*word.split(":")) if ":" in word else literal(word, "Id")
        self.take("=")
        value = self.as_sort("AExp", self.number())
        self.take(";")
        return "Stmt", application(f"Lbl'UndsEqlsUndsSClnUnds{OF_SYNTAX}Stmt'Unds'Id'Unds'AExp", name, value)

    def block(self):
        if not self.is_next("{"):
            return "Block", variable(*self.take().split(":"))
        self.take("{")
        if self.is_next("}"):
            self.take()
            return "Block", application(f"Lbl'LBraRBraUnds{OF_SYNTAX}Block")
        inner = self.as_sort("Stmt", self.statements())
        self.take("}")
        return "Block", application(f"Lbl'LBraUndsRBraUnds{OF_SYNTAX}Block'Unds'Stmt", inner)

    def truth(self):
        left = self.test()
        if not self.is_next("&&"):
            return left
        self.take()
        two = [self.as_sort("BExp", it) for it in (left, self.truth())]
        return "BExp", application(f"Lbl'UndsAnd-And-UndsUnds{OF_SYNTAX}BExp'Unds'BExp'Unds'BExp", *two)

    def test(self):
        if self.is_next("true", "false"):
            return "Bool", literal(self.take(), "Bool")
        if self.is_next("!"):
            self.take()
            return "BExp", application(f"Lbl'XclamUndsUnds{OF_SYNTAX}BExp'Unds'BExp", self.as_sort("BExp", self.test()))
        if re.search(":B(Exp|ool)$", self.peek()):
            name, of = self.take().split(":")
            return of, variable(name, of)
        left = self.number()
        if not self.is_next("<="):
            return left
        self.take()
        return "BExp", application(LESS, *[self.as_sort("AExp", it) for it in (left, self.number())])

    def number(self, level=0):
        """Sums of products of parts."""
        if level == 2:
            return self.part()
        left, marks = self.number(level + 1), ["+-", "*/"][level]
        while self.peek() and self.peek() in marks:
            mark = self.take()
            right = self.number(level + 1)
            left = "AExp", application(SUM[mark], *[self.as_sort("AExp", it) for it in (left, right)])
        return left

    def part(self):
        word = self.take()
        if word == "(":
            found = self.number()
            self.take(")")
            return found
        if word == "read":
            self.take("("), self.take(")")
            return "AExp", application(f"Lblread'LParRParUnds{OF_SYNTAX}AExp")
        if word == "-" or word.isdigit():
            return "Int", literal(word if word.isdigit() else word + self.take(), "Int")
        if ":" in word:
            return word.split(":")[1], variable(*word.split(":"))
        return ("Int", variable(word, "Int")) if word.isupper() else ("Id", literal(word, "Id"))

    def continuation(self):
        """What the cell `k` holds: items, then `.` or a variable of the sort K."""
        items = []
        while not self.is_next(".") and not self.peek().endswith(":K"):
            items.append(self.as_sort("KItem", self.item()))
            self.take("~>")
        rest = self.take()
        return kseq(items, application("dotk") if rest == "." else variable(*rest.split(":")))

    def item(self):
        """A program, statements, or what is a part of a statement."""
        if self.is_next("int"):
            return self.program()
        begins = self.is_next("{", "if", "while") or self.peek().endswith((":Stmt", ":Block"))
        is_statement = begins or "=" in self.tokens[self.at + 1 : self.at + 2]
        return self.statements() if is_statement else self.truth()

    # ---- whole numbers in cells and conditions

    def call(self, level=0):
        marks = [["&&"], [">=", "<=", "<", ">", "==", "!="], ["+", "-"], ["*", "/"]]
        if level == len(marks):
            return self.part()[1]
        left = self.call(level + 1)
        while self.peek() in marks[level]:
            left = application(NUMBERS[self.take()], left, self.call(level + 1))
        return left


def cell(name, *inside):
    return application(f"Lbl'-LT-'{name}'-GT-'", *inside)


def predicate(text):
    """`X <= 0`, or its opposite `! X <= 0`."""
    reader = Reader(text.lstrip("! "))
    sides = [reader.call(), literal("false" if text.startswith("!") else "true", "Bool")]
    return {"argSort": sort("Bool"), "first": sides[0], "second": sides[1], "sort": sort("GeneratedTopCell"), "tag": "Equals"}


def imp(k, n="0", sum="0", where=(), count="0"):
    state = cell("state", *[cell(name, Reader(text).call()) for name, text in (("n", n), ("sum", sum))])
    top = cell("generatedTop", cell("T", cell("k", Reader(k).continuation()), state), cell("generatedCounter", Reader(count).call()))
    return conjunction([top, *map(predicate, where)])


def counter(k, rest=".", where=(), count="0"):
    """`count(X)`, `done` or `P:Pgm` before the rest."""
    word = re.match(r"count\((.*)\)$", k)
    if word:
        item = application("Lblcount", Reader(word[1]).call())
    else:
        item = application("Lbldone") if k == "done" else variable(*k.split(":"))
    tail = application("dotk") if rest == "." else variable(*rest.split(":"))
    inside = kseq([injected("Pgm", "KItem", item)], tail)
    counted = cell("generatedCounter", literal(count, "Int")) if count.isdigit() else variable(count, "GeneratedCounterCell")
    return conjunction([cell("generatedTop", cell("k", inside), counted), *map(predicate, where)])


def request(name, state, method="execute", **params):
    params = {key.replace("_", "-"): value for key, value in params.items()}
    return {"id": name, "jsonrpc": "2.0", "method": method, "params": {**params, "state": wrapped(state)}}


# ---- reading Kore JSON in the notation


def shown(tree):
    """A pattern in a short notation, for readers."""
    tag = tree["tag"]
    if tag == "EVar":
        return tree["name"].removeprefix("Var") + ("" if tree["sort"]["name"] == "SortInt" else ":" + tree["sort"]["name"][4:])
    if tag == "DV":
        return tree["value"]
    if tag in ("Top", "Bottom"):
        return "\\" + tag.lower()
    if tag == "App":
        name, parts = tree["name"].removeprefix("Lbl"), [shown(it) for it in tree["args"]]
        if name == "inj":
            return parts[0]
        if name == "kseq":
            return " ~> ".join(parts)
        if name == "dotk":
            return "."
        if "'-LT-'" in name and name.endswith("'-GT-'"):
            word = name[6:-6]
            return f"<{word}> {' '.join(parts)} </{word}>"
        for mark, symbol in NUMBERS.items():
            if symbol == tree["name"]:
                return f"({parts[0]} {mark}Int {parts[1]})"
        found = re.split("'IMP-SYNTAX'|'IMP'", name)[0]
        for code, text in CODES:
            found = found.replace(code, text)
        found = found.replace("'", "").rstrip("_") if "_" not in found.rstrip("_") else found.replace("'", "")
        return f"{found}({', '.join(parts)})"
    if tag in ("And", "Or"):
        return (" /\\ " if tag == "And" else " \\/ ").join(shown(it) for it in tree["patterns"])
    if tag == "Equals":
        if tree["second"].get("value") == "true":
            return f"[{shown(tree['first'])}]"
        return f"{shown(tree['first'])} = {shown(tree['second'])}"
    if tag == "Not":
        return f"not({shown(tree['arg'])})"
    if tag == "Exists":
        return f"exists {tree['var']}. {shown(tree['arg'])}"
    return tag


CODES = [("-LT-", "<"), ("-GT-", ">"), ("LPar", "("), ("RPar", ")"), ("LBra", "{"), ("RBra", "}"), ("Eqls", "="), ("SCln", ";")]
CODES += [("Plus", "+"), ("Star", "*"), ("Slsh", "/"), ("Xclam", "!"), ("And-", "&"), ("Hash", "#"), ("Comm", ","), ("Unds", "_")]


def told(reply):
    """A reply with each wrapper in the short notation."""
    if isinstance(reply, dict):
        return shown(reply["term"]) if "format" in reply else {key: told(it) for key, it in reply.items()}
    return [told(it) for it in reply] if isinstance(reply, list) else reply
