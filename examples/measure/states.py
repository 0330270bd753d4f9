# Random states, read and written by the code, against an evaluation of patterns written from matching logic in words.
# python3 states.py crate        writes the crate crates/stated, a program that reads a module and then a state a line, and
#                                writes the nanoseconds and what is written for the state that it is read as; to be added to
#                                crates.txt as stated: kp_kore kp_text kp_print kp_signature kp_symbolic kp_outward kp_solving
# python3 states.py FIRST LAST PROGRAM   a state for each number from FIRST to below LAST, read and written twice; each has
#                                to have the same instance under twenty valuations, no call of literals alone, and no `x + 0`
# The program is made as docs/LESSONS.md says under 'A program's speed before its proof'.
import os, random, re, subprocess, sys

MODULE = r'''module DRAWN
  hooked-sort I{} [hook{}("INT.Int")]
  hooked-sort B{} [hook{}("BOOL.Bool")]
  sort T{} [hasDomainValues{}()]
  sort E{} []
  sort P{} []
  sort S{} []
  symbol inj{From, To}(From) : To [sortInjection{}()]
  symbol nil{}() : E{} [constructor{}()]
  symbol a{}() : P{} [constructor{}()]
  symbol b{}() : P{} [constructor{}()]
  symbol f{}(I{}) : S{} [constructor{}()]
  symbol g{}(S{}) : S{} [constructor{}()]
  symbol e{}(E{}) : S{} [constructor{}()]
  symbol t{}(T{}) : S{} [constructor{}()]
  symbol h{}(P{}) : S{} [constructor{}()]
  symbol pair{}(I{}, S{}) : S{} [constructor{}()]
  hooked-symbol add{}(I{}, I{}) : I{} [hook{}("INT.add")]
  hooked-symbol sub{}(I{}, I{}) : I{} [hook{}("INT.sub")]
  hooked-symbol lt{}(I{}, I{}) : B{} [hook{}("INT.lt")]
  hooked-symbol ge{}(I{}, I{}) : B{} [hook{}("INT.ge")]
  hooked-symbol eq{}(I{}, I{}) : B{} [hook{}("INT.eq")]
  hooked-symbol ne{}(I{}, I{}) : B{} [hook{}("INT.ne")]
  hooked-symbol no{}(B{}) : B{} [hook{}("BOOL.not")]
  hooked-symbol both{}(B{}, B{}) : B{} [hook{}("BOOL.and")]
  hooked-symbol either{}(B{}, B{}) : B{} [hook{}("BOOL.or")]
  hooked-symbol same{}(E{}, E{}) : B{} [hook{}("KEQUAL.eq")]
  axiom{R} \top{R}() [subsort{I{}, E{}}()]
  axiom{R} \top{R}() [subsort{T{}, E{}}()]
endmodule []'''

# The forms of each kind, of which the first eight have no part that is drawn.
FORMS = {
    '*': [
        r'f{}(X:I{})',
        r'\and{S{}}(f{}(X:I{}),\top{S{}}())',
        r'pair{}(Y:I{},Z:S{})',
        r'e{}(Q:E{})',
        r't{}(T:T{})',
        r'h{}(P:P{})',
        r'g{}(Z:S{})',
        r'\and{S{}}(Z:S{},\equals{I{},S{}}(X:I{},Y:I{}))',
        r'\and{S{}}($,!,!)',
        r'\and{S{}}($,=,!)',
        r'\and{S{}}(!,$,=)',
        r'\and{S{}}($,=,=,!)',
        r'\and{S{}}(!,\and{S{}}(=,$),!)',
        r'\and{S{}}(=,\and{S{}}(!,=),$)',
        r'\and{S{}}($,!,!,!,!)',
        r'\and{S{}}(\and{S{}}($,!),\and{S{}}(=,!))',
    ],
    '=': [
        r'\equals{I{},S{}}(X:I{},Y:I{})',
        r'\equals{I{},S{}}(Y:I{},X:I{})',
        r'\equals{B{},S{}}(B:B{},\dv{B{}}("true"))',
        r'\equals{B{},S{}}(eq{}(Y:I{},\dv{I{}}("1")),\dv{B{}}("true"))',
        r'\equals{B{},S{}}(\dv{B{}}("false"),ne{}(X:I{},\dv{I{}}("2")))',
        r'\equals{P{},S{}}(a{}(),P:P{})',
        r'\equals{S{},S{}}(Z:S{},f{}(Y:I{}))',
        r'\in{T{},S{}}(T:T{},\dv{T{}}("4"))',
        r'\equals{I{},S{}}(X:I{},#)',
        r'\equals{I{},S{}}(#,Y:I{})',
        r'\equals{S{},S{}}(Z:S{},$)',
        r'\equals{S{},S{}}($,Z:S{})',
        r'\equals{E{},S{}}(%,Q:E{})',
        r'\equals{E{},S{}}(Q:E{},%)',
        r'\equals{B{},S{}}(B:B{},?)',
        r'\equals{B{},S{}}(same{}(Q:E{},%),\dv{B{}}("true"))',
    ],
    '!': [
        r'\top{S{}}()',
        r'\exists{S{}}(W:I{},\equals{S{},S{}}(Z:S{},f{}(W:I{})))',
        r'\not{S{}}(\exists{S{}}(W:I{},\equals{E{},S{}}(Q:E{},inj{I{},E{}}(W:I{}))))',
        r'\exists{S{}}(X:I{},\exists{S{}}(V:S{},\equals{S{},S{}}(Z:S{},pair{}(X:I{},V:S{}))))',
        r'\equals{B{},S{}}(lt{}(X:I{},Y:I{}),\dv{B{}}("true"))',
        r'\not{S{}}(\equals{I{},S{}}(X:I{},\dv{I{}}("1")))',
        r'\ceil{S{},S{}}(\and{S{}}(Z:S{},f{}(Y:I{})))',
        r'\exists{S{}}(X:I{},\equals{I{},S{}}(X:I{},Y:I{}))',
        r'\not{S{}}(!)',
        r'\or{S{}}(!,=,!)',
        r'\implies{S{}}(!,!)',
        r'\iff{S{}}(!,=)',
        r'\exists{S{}}(X:I{},!)',
        r'\forall{S{}}(P:P{},\or{S{}}(!,=))',
        r'\and{S{}}(!,\floor{S{},S{}}(!),\ceil{S{},S{}}(=))',
        r'\equals{B{},S{}}(?,\dv{B{}}("false"))',
    ],
    '$': [
        r'Z:S{}',
        r'f{}(X:I{})',
        r'g{}(Z:S{})',
        r'h{}(P:P{})',
        r't{}(T:T{})',
        r'e{}(Q:E{})',
        r'f{}(\dv{I{}}("2"))',
        r'h{}(b{}())',
        r'f{}(#)',
        r'g{}($)',
        r'pair{}(#,$)',
        r'e{}(%)',
        r'pair{}(#,Z:S{})',
        r'g{}(f{}(#))',
        r'f{}(#)',
        r'e{}(inj{I{},E{}}(#))',
    ],
    '#': [
        r'X:I{}',
        r'Y:I{}',
        r'\dv{I{}}("0")',
        r'\dv{I{}}("-1")',
        r'sub{}(X:I{},\dv{I{}}("1"))',
        r'add{}(Y:I{},\dv{I{}}("1"))',
        r'add{}(\dv{I{}}("+1"),\dv{I{}}("02"))',
        r'add{}(X:I{},Y:I{})',
        r'add{}(#,\dv{I{}}("1"))',
        r'sub{}(#,\dv{I{}}("1"))',
        r'sub{}(#,#)',
        r'add{}(#,#)',
        r'sub{}(add{}(#,\dv{I{}}("2")),\dv{I{}}("2"))',
        r'add{}(\dv{I{}}("2"),#)',
        r'sub{}(\dv{I{}}("2"),#)',
        r'add{}(#,\dv{I{}}("0"))',
    ],
    '%': [
        r'Q:E{}',
        r'nil{}()',
        r'inj{I{},E{}}(X:I{})',
        r'inj{T{},E{}}(T:T{})',
        r'inj{I{},E{}}(\dv{I{}}("1"))',
        r'inj{T{},E{}}(\dv{T{}}("5"))',
        r'inj{I{},E{}}(Y:I{})',
        r'Q:E{}',
        r'inj{I{},E{}}(#)',
        r'inj{I{},E{}}(#)',
        r'inj{I{},E{}}(#)',
        r'inj{I{},E{}}(#)',
        r'Q:E{}',
        r'nil{}()',
        r'inj{T{},E{}}(T:T{})',
        r'inj{T{},E{}}(\dv{T{}}("4"))',
    ],
    '?': [
        r'B:B{}',
        r'\dv{B{}}("true")',
        r'lt{}(X:I{},Y:I{})',
        r'ge{}(Y:I{},\dv{I{}}("1"))',
        r'eq{}(X:I{},Y:I{})',
        r'no{}(B:B{})',
        r'same{}(Q:E{},inj{I{},E{}}(X:I{}))',
        r'ne{}(X:I{},\dv{I{}}("2"))',
        r'lt{}(#,#)',
        r'ge{}(#,#)',
        r'eq{}(#,#)',
        r'ne{}(#,#)',
        r'no{}(?)',
        r'both{}(?,?)',
        r'either{}(?,?)',
        r'same{}(%,%)',
    ],
}


def drawn(draw, kind, levels):
    form = draw.choice(FORMS[kind][:8] if levels == 0 else FORMS[kind])
    return form if levels == 0 else "".join(drawn(draw, c, levels - 1) if c in FORMS else c for c in form)


class Reader:
    """Kore's textual syntax: (head, sorts, parts), a variable as ('variable', name, sort)."""

    def __init__(self, text):
        self.text, self.at = text, 0

    def skip(self):
        while self.at < len(self.text) and self.text[self.at] in " \n":
            self.at += 1

    def take(self, c):
        self.skip()
        assert self.text[self.at] == c, self.text[self.at : self.at + 40]
        self.at += 1

    def is_next(self, c):
        self.skip()
        return self.text[self.at] == c

    def name(self):
        self.skip()
        found = re.match(r"\\?[A-Za-z0-9'-]+", self.text[self.at :])
        self.at += found.end()
        return found[0]

    def sorts(self):
        self.take("{")
        found = []
        while not self.is_next("}"):
            found.append(self.name())
            self.sorts()
            if self.is_next(","):
                self.take(",")
        self.take("}")
        return found

    def pattern(self):
        name = self.name()
        if self.is_next(":"):
            self.take(":")
            sort = self.name()
            self.sorts()
            return ("variable", name, sort)
        sorts, parts = self.sorts(), []
        self.take("(")
        while not self.is_next(")"):
            if self.is_next('"'):
                end = self.text.index('"', self.at + 1)
                parts.append(self.text[self.at + 1 : end])
                self.at = end + 1
            else:
                parts.append(self.pattern())
            if self.is_next(","):
                self.take(",")
        self.take(")")
        return (name, sorts, parts)


# ---- what a pattern stands for: nothing, everything, or one value

ALL, NOTHING = "all", None
NEAR = [("number", n) for n in range(-2, 6)]
VALUES = {"I": NEAR, "B": [("truth", False), ("truth", True)], "P": [("a",), ("b",)], "S": [("f", n) for n in NEAR]}
CALLS = ("add", "sub", "lt", "ge", "eq", "ne", "no", "both", "either", "same")


def fact(holds):
    return ALL if holds else NOTHING


def both(left, right):
    return right if left == ALL else left if right in (ALL, left) else NOTHING


def called(name, parts):
    numbers = [part[-1] for part in parts]
    if name in ("add", "sub"):
        return ("number", numbers[0] + numbers[1] if name == "add" else numbers[0] - numbers[1])
    answers = {
        "lt": lambda: numbers[0] < numbers[1],
        "ge": lambda: numbers[0] >= numbers[1],
        "eq": lambda: parts[0] == parts[1],
        "same": lambda: parts[0] == parts[1],
        "ne": lambda: parts[0] != parts[1],
        "no": lambda: not numbers[0],
        "both": lambda: numbers[0] and numbers[1],
        "either": lambda: numbers[0] or numbers[1],
    }
    return ("truth", answers[name]())


def literal(sort, text):
    return ("number", int(text)) if sort == "I" else ("truth", text == "true") if sort == "B" else ("token", text)


def instance(pattern, values):
    name = pattern[0]
    if name == "variable":
        return values[pattern[1]]
    sorts, parts = pattern[1], pattern[2]
    if name == "\\dv":
        return literal(sorts[0], parts[0])
    if name in ("\\exists", "\\forall"):
        (_, bound, sort), under = parts
        found = [instance(under, dict(values, **{bound: value})) for value in VALUES[sort]]
        return fact(ALL in found if name == "\\exists" else all(one == ALL for one in found))
    parts = [instance(part, values) for part in parts]
    if name == "\\and":
        found = ALL
        for part in parts:
            found = both(found, part)
        return found
    if name in ("\\not", "\\or", "\\implies", "\\top", "\\bottom"):
        assert all(part in (ALL, NOTHING) for part in parts), pattern
        holds = [part == ALL for part in parts]
        said = {"\\not": lambda: not holds[0], "\\or": lambda: any(holds), "\\implies": lambda: holds[1] or not holds[0]}
        return fact(said[name]() if name in said else name == "\\top")
    if name in ("\\iff", "\\equals", "\\in"):
        return fact(parts[0] == parts[1])
    if name in ("\\ceil", "\\floor"):
        return fact(parts[0] != NOTHING if name == "\\ceil" else parts[0] == ALL)
    assert all(part not in (ALL, NOTHING) for part in parts), pattern
    return parts[0] if name == "inj" else called(name, parts) if name in CALLS else (name, *parts)


def valuation(draw):
    number = lambda: ("number", draw.randrange(4))
    token = lambda: ("token", draw.choice("45"))
    over = lambda: draw.choice([("nil",), token(), number(), number()])
    f, constant = lambda: ("f", number()), lambda: draw.choice([("a",), ("b",)])
    made = draw.choice([("g", f()), ("pair", number(), f()), ("e", over()), ("t", token()), ("h", constant()), f(), f(), f()])
    return {"X": number(), "Y": number(), "Z": made, "B": ("truth", draw.random() < 0.5), "P": constant(), "T": token(), "Q": over()}


def is_literal(pattern):
    return pattern[0] == "\\dv" or pattern[0] == "inj" and is_literal(pattern[2][0])


def left_open(pattern):
    """A call of literals alone, or a variable with 0 added or taken away."""
    if pattern[0] in ("variable", "\\dv"):
        return None
    name, parts = pattern[0], [part for part in pattern[2] if isinstance(part, tuple)]
    if name in CALLS and all(is_literal(part) for part in parts):
        return pattern
    if name in ("add", "sub") and parts[0][0] == "variable" and parts[1][0] == "\\dv" and int(parts[1][2][0]) == 0:
        return pattern
    return next((found for found in map(left_open, parts) if found), None)


def written(program, texts):
    asked = "\n".join([MODULE.replace("\n", " ")] + texts) + "\n"
    lines = subprocess.run([program], input=asked, capture_output=True, text=True).stdout.split("\n")[:-1]
    assert len(lines) == len(texts), len(lines)
    return [line.split("\t", 1)[1] for line in lines], sum(int(line.split("\t", 1)[0]) for line in lines) / 1e9


def compare(first, last, program):
    draws = [random.Random(number) for number in range(first, last)]
    texts = [drawn(draw, "*", draw.choice([2, 3, 4])) for draw in draws]
    once, seconds = written(program, texts)
    twice, _ = written(program, once)
    instances = wrong = 0
    for draw, text, one, two in zip(draws, texts, once, twice):
        patterns = [Reader(it).pattern() for it in (text, one, two)]
        if left_open(patterns[1]):
            wrong += 1
            print("left open", left_open(patterns[1]), text, one, sep="\n  ")
        for _ in range(20):
            values = valuation(draw)
            found = [instance(pattern, values) for pattern in patterns]
            instances += found[0] != NOTHING
            if found[1] != found[0] or found[2] != found[0]:
                wrong += 1
                print("differs", text, one, two, values, found, sep="\n  ")
                break
    print(len(texts), "states,", instances, "instances under 20 valuations each,", wrong, "wrong,", round(seconds, 2), "s")


CRATE = r"""// Reads states of a definition, one a line, and writes what they are read as; tells the time.
#![tactic(auto)]

mod states;

use states::{answer, signature};
use std::io;
use std::time::Instant;

fn main(rt: HostRuntime) -> io::Result<()> {
    let mut lines = rt.lines(rt.alloc());
    let Some(module) = lines.next() else {
        return Ok(());
    };
    let signature = signature(rt.alloc(), module?.as_str())?;
    for line in lines {
        let line = line?;
        let start = Instant::now(&rt)?;
        let text = answer(rt.alloc(), &signature, line.as_str())?;
        let nanos = start.elapsed(&rt)?.as_nanos();
        println!(rt; "{nanos}\t{}", text.as_str())?;
    }
    Ok(())
}
"""

STATES = r"""use kp_kore::{Pattern, Sort};
use kp_outward::state_out;
use kp_print::print_pattern;
use kp_signature::{Signature, verify};
use kp_solving::inward;
use kp_symbolic::{Language, State};
use kp_text::{read_module, read_pattern};
use std::alloc::{AllocError, Global};
use std::io;

/// The signature of a module.
pub fn signature(alloc: Global, text: &str) -> io::Result<Signature> {
    match read_module(alloc, text.as_bytes()) {
        Ok(module) => Ok(Signature::new(alloc, &[&module])?),
        Err(_) => Err(io::Error::from(AllocError)),
    }
}

/// A word as text of its own.
fn word(alloc: Global, text: &str) -> Result<String, AllocError> {
    String::from_str(alloc, text)
}

/// The sort of states.
fn sort(alloc: Global) -> Result<Sort, AllocError> {
    Ok(Sort::App {
        name: String::from_str(alloc, "S")?,
        arguments: Vec::new(alloc),
    })
}

/// What is written for a state.
fn text_of(alloc: Global, language: &Language, state: &State) -> Result<String, AllocError> {
    match state_out(alloc, language, state) {
        Ok(pattern) => {
            let bytes = print_pattern(alloc, &pattern)?;
            match String::from_utf8(bytes) {
                Ok(text) => Ok(text),
                Err(_) => word(alloc, "no text"),
            }
        }
        Err(_) => word(alloc, "not written"),
    }
}

/// The same of a pattern that is read as one.
fn written(alloc: Global, language: &Language, pattern: &Pattern) -> Result<String, AllocError> {
    let sort = sort(alloc)?;
    match inward(alloc, language, pattern, sort) {
        Ok(state) => text_of(alloc, language, &state),
        Err(_) => word(alloc, "not read"),
    }
}

/// The same of one that is verified first.
fn verified(alloc: Global, signature: &Signature, pattern: &Pattern) -> Result<String, AllocError> {
    match verify(alloc, signature, pattern) {
        Ok(_) => {
            let language = Language::new(alloc, signature)?;
            written(alloc, &language, pattern)
        }
        Err(_) => word(alloc, "not verified"),
    }
}

/// What is written for a state's text.
pub fn answer(alloc: Global, signature: &Signature, text: &str) -> Result<String, AllocError> {
    match read_pattern(alloc, text.as_bytes()) {
        Ok(pattern) => verified(alloc, signature, &pattern),
        Err(_) => word(alloc, "no pattern"),
    }
}
"""

if __name__ == "__main__":
    if sys.argv[1] == "crate":
        os.makedirs("crates/stated/src", exist_ok=True)
        for name, text in (("main.rt", CRATE), ("states.rt", STATES)):
            open(f"crates/stated/src/{name}", "w").write(text)
    else:
        compare(int(sys.argv[1]), int(sys.argv[2]), sys.argv[3])
