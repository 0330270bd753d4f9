# Conditions for kp_satisfiability and for Z3, both from the same random draws.
# python3 decide.py crate        writes the crate crates/decided, a program that decides a condition a line; to be
#                                added to crates.txt as decided: and kp_kore kp_text kp_signature kp_heads kp_symbolic kp_limits kp_satisfiability
# python3 decide.py FIRST LAST LINES SMT   a condition for each number from FIRST to below LAST: to LINES as the program
#                                reads them, to SMT as SMT-LIB, with a push and a pop each
# python3 decide.py halves LINES SMT       one of the longest conditions within the limits; or apart, tokens
# python3 decide.py ask PROGRAM LINES SMT  asks both, compares the answers, and tells the times
import os, random, resource, subprocess, sys

YES, NO = '\\dv{B{}}("true")', '\\dv{B{}}("false")'
NUMBERS, TRUTHS, TOKENS, HEADS = "XYZW", "PQ", ("A", "C"), "MO"
CONSTRUCTORS = "pqr"
WORDS = {"lt": "<", "le": "<=", "gt": ">", "ge": ">="}


def constant(draw, size):
    if size == "small":
        return draw.randint(-4, 4)
    return draw.choice([-1, 1]) * draw.randint(0, 2 ** draw.choice([8, 40, 100]))


def smt_number(n):
    return str(n) if n >= 0 else f"(- {-n})"


def kore_number(n):
    return f'\\dv{{I{{}}}}("{n}")'


def number_term(draw, size):
    """A number, a variable, or one more or less than a variable."""
    kind = draw.randrange(4)
    name = draw.choice(NUMBERS)
    n = constant(draw, size)
    if kind == 0:
        return kore_number(n), smt_number(n)
    if kind == 1:
        return f"{name}:I{{}}", name
    word = draw.choice(["add", "sub"])
    sign = "+" if word == "add" else "-"
    return f"{word}{{}}({name}:I{{}}, {kore_number(n)})", f"({sign} {name} {smt_number(n)})"


def number_literal(draw, size):
    (left, a), (right, b) = number_term(draw, size), number_term(draw, size)
    if left.startswith("\\dv") and right.startswith("\\dv"):
        # (two constants are compared where a literal is made, before anything is decided)
        right, b = f"{NUMBERS[0]}:I{{}}", NUMBERS[0]
    holds = draw.random() < 0.6
    kind = draw.randrange(3)
    if kind == 0:
        row, said = ("I", left, right), f"(= {a} {b})"
    else:
        word = draw.choice(["lt", "le", "gt", "ge", "eq", "ne"])
        said = f"({WORDS[word]} {a} {b})" if word in WORDS else f"(= {a} {b})" if word == "eq" else f"(not (= {a} {b}))"
        yes = draw.random() < 0.7
        row = ("B", f"{word}{{}}({left}, {right})", YES if yes else NO)
        said = said if yes else f"(not {said})"
    return holds, row, said


def truth_literal(draw):
    name, yes = draw.choice(TRUTHS), draw.random() < 0.5
    return draw.random() < 0.5, ("B", f"{name}:B{{}}", YES if yes else NO), name if yes else f"(not {name})"


def token_term(draw):
    name = draw.choice(TOKENS + ("a", "b", "c"))
    return (f"{name}:T{{}}", "T" + name) if name in TOKENS else (f'\\dv{{T{{}}}}("{name}")', "t" + name)


def token_literal(draw):
    (left, a), (right, b) = token_term(draw), token_term(draw)
    holds, kind = draw.random() < 0.5, draw.randrange(4)
    if kind == 0:
        return holds, ("K", "A:T{}", "D:U{}"), "false"
    return holds, ("T", left, right), f"(= {a} {b})"


def head_literal(draw):
    name, word = draw.choice(HEADS), draw.choice(CONSTRUCTORS)
    return False, ("V", f"{name}:V{{}}", f"{word}{{}}()"), f"(= {name} {word})"


def condition(number):
    draw = random.Random(number)
    size = draw.choice(["small", "small", "large"])
    clauses = []
    for _ in range(draw.randint(1, 7)):
        clause = []
        for _ in range(draw.choice([1, 1, 2, 3])):
            kind = draw.randrange(10)
            clause.append(number_literal(draw, size) if kind < 6 else truth_literal(draw) if kind < 8 else token_literal(draw))
        clauses.append(clause)
    for _ in range(draw.choice([0, 0, 1, 3, 5])):
        clauses.append([head_literal(draw)])
    draw.shuffle(clauses)
    return clauses


def compare(word, left, right, a, b):
    return True, ("B", f"{word}{{}}({left}, {right})", YES), f"({WORDS[word]} {a} {b})"


def place(k):
    return f"V{k}:I{{}}", f"V{k}"


def worst_tokens():
    """A chain of 480 tokens that are equal, the last of them a, with twelve choices, of which the last asks for b."""
    name = lambda k: (f"A{k}:T{{}}", f"A{k}")
    same = lambda a, b: (True, ("T", a[0], b[0]), f"(= {a[1]} {b[1]})")
    word = lambda w: (f'\\dv{{T{{}}}}("{w}")', "t" + w)
    clauses = [[same(name(k + 1), name(k))] for k in range(479)] + [[same(name(479), word("a"))]]
    for k in range(500, 511):
        clauses.append([same(name(k), name(k + 1)), same(name(k + 1), name(k + 2))])
    return clauses + [[same(name(0), word("b")), same(name(1), word("c"))]]


def worst(kind):
    """A ring of 110 numbers from 0 to 10000, each at most 300 above the next, with choices of two ways each."""
    if kind == "tokens":
        return worst_tokens()
    clauses = []
    least = lambda k, n: compare("ge", place(k)[0], kore_number(n), place(k)[1], smt_number(n))
    most = lambda k, n: compare("le", place(k)[0], kore_number(n), place(k)[1], smt_number(n))
    for k in range(110):
        after = (k + 1) % 110
        clauses.append([most(k, 10000)])
        clauses.append([least(k, 0)])
        clauses.append([compare("le", place(k)[0], f"add{{}}({place(after)[0]}, {kore_number(300)})", f"V{k}", f"(+ V{after} 300)")])
    if kind == "halves":
        # eleven choices that leave both ways, and one that leaves none
        for k in range(11):
            clauses.append([most(7 * k, 5000), least(7 * k, 5001)])
        clauses.append([least(77, 20000), most(77, -20000)])
    else:
        # five numbers of four values that are all to differ, and two choices beside them
        for k in range(5):
            clauses.append([most(20 * k, 3)])
        for k in range(5):
            for j in range(k):
                clauses.append([(False, ("I", place(20 * j)[0], place(20 * k)[0]), f"(= V{20 * j} V{20 * k})")])
        for k in (50, 90):
            clauses.append([most(k, 5000), least(k, 5001)])
    return clauses


def line(clauses):
    return "|".join("\t".join(("+" if holds else "-") + "~" + "~".join(row) for holds, row, _ in clause) for clause in clauses)


def smt(clauses):
    said = ["(or " + " ".join(said if holds else f"(not {said})" for holds, _, said in clause) + ")" for clause in clauses]
    return "(push)" + "".join(f"(assert {text})" for text in said) + "(check-sat)(pop)"


HEAD = """(declare-datatypes ((V 0)) (((p) (q) (r))))
(declare-sort T 0)
(declare-const X Int)(declare-const Y Int)(declare-const Z Int)(declare-const W Int)
(declare-const P Bool)(declare-const Q Bool)
(declare-const M V)(declare-const O V)
(declare-const TA T)(declare-const TC T)(declare-const ta T)(declare-const tb T)(declare-const tc T)
(assert (distinct ta tb tc))
""" + "".join(f"(declare-const V{k} Int)" for k in range(110)) + "".join(f"(declare-const A{k} T)" for k in range(520)) + "\n"

CRATE = r"""// Decides conditions, one a line, and tells how long that took without reading them. A condition is clauses with '|'
// between them, a clause is literals with tabs between them, a literal is '+' or '-', the sort of its equality and the
// two sides, with '~' between them. For each line it prints some, none, open or over; then the nanoseconds.
#![tactic(auto)]

mod conditions;

use conditions::{answer, signature, state};
use kp_satisfiability::decide;
use kp_heads::HeadTable;
use kp_symbolic::Language;
use std::io;
use std::time::Instant;

fn main(rt: HostRuntime) -> io::Result<()> {
    let signature = signature(rt.alloc())?;
    let table = HeadTable::new(rt.alloc(), &signature)?;
    let language = Language::new(rt.alloc(), &signature)?;
    let mut nanos = 0u128;
    for line in rt.lines(rt.alloc()) {
        let state = state(rt.alloc(), &language, line?.as_str())?;
        let start = Instant::now(&rt)?;
        let verdict = decide(rt.alloc(), &signature, &table, &state)?;
        nanos = nanos.saturating_add(start.elapsed(&rt)?.as_nanos());
        println!(rt; "{}", answer(&verdict))?;
    }
    println!(rt; "{nanos}")?;
    Ok(())
}
"""

CONDITIONS = r'''use kp_satisfiability::Verdict;
use kp_kore::Sort;
use kp_signature::Signature;
use kp_symbolic::{Atom, Clause, Language, Literal, State, Term, Variable, term_under};
use kp_text::{read_module, read_pattern};
use std::alloc::{AllocError, Global};
use std::sync::Arc;

/// Numbers, truth values, tokens of T and of U, both below K, and V with three constants.
const SMALL: &str = r#"module SMALL
  hooked-sort I{} [hook{}("INT.Int")]
  hooked-sort B{} [hook{}("BOOL.Bool")]
  sort T{} [hasDomainValues{}()]
  sort U{} [hasDomainValues{}()]
  sort K{} []
  sort V{} []
  sort S{} []
  symbol p{}() : V{} [constructor{}()]
  symbol q{}() : V{} [constructor{}()]
  symbol r{}() : V{} [constructor{}()]
  symbol g{}(V{}) : S{} [constructor{}()]
  hooked-symbol add{}(I{}, I{}) : I{} [hook{}("INT.add")]
  hooked-symbol sub{}(I{}, I{}) : I{} [hook{}("INT.sub")]
  hooked-symbol mul{}(I{}, I{}) : I{} [hook{}("INT.mul")]
  hooked-symbol lt{}(I{}, I{}) : B{} [hook{}("INT.lt")]
  hooked-symbol le{}(I{}, I{}) : B{} [hook{}("INT.le")]
  hooked-symbol gt{}(I{}, I{}) : B{} [hook{}("INT.gt")]
  hooked-symbol ge{}(I{}, I{}) : B{} [hook{}("INT.ge")]
  hooked-symbol eq{}(I{}, I{}) : B{} [hook{}("INT.eq")]
  hooked-symbol ne{}(I{}, I{}) : B{} [hook{}("INT.ne")]
  hooked-symbol same{}(K{}, K{}) : B{} [hook{}("KEQUAL.eq")]
  hooked-symbol differ{}(K{}, K{}) : B{} [hook{}("KEQUAL.ne")]
  axiom{R} \top{R}() [subsort{T{}, K{}}()]
  axiom{R} \top{R}() [subsort{U{}, K{}}()]
endmodule []
"#;

/// The signature of the module.
pub(crate) fn signature(alloc: Global) -> Result<Signature, AllocError> {
    let module = read_module(alloc, SMALL.as_bytes()).map_err(|_| AllocError)?;
    Signature::new(alloc, &[&module]).map_err(|_| AllocError)
}

fn folded(alloc: Global, language: &Language, text: &str) -> Result<Term, AllocError> {
    let pattern = read_pattern(alloc, text.as_bytes()).map_err(|_| AllocError)?;
    term_under(&pattern, alloc, language, &[]).map_err(|_| AllocError)
}

fn sort(alloc: Global, name: &str) -> Result<Sort, AllocError> {
    Ok(Sort::App {
        name: String::from_str(alloc, name)?,
        arguments: Vec::new(alloc),
    })
}

fn literal(alloc: Global, language: &Language, text: &str) -> Result<Literal, AllocError> {
    let mut fields = text.split('~');
    let holds = fields.next().unwrap_or("") == "+";
    let place = fields.next().unwrap_or("");
    let left = folded(alloc, language, fields.next().unwrap_or(""))?;
    let right = folded(alloc, language, fields.next().unwrap_or(""))?;
    let sort = Arc::new(alloc, sort(alloc, place)?)?;
    Ok(Literal {
        holds,
        atom: Atom::Same { sort, left, right },
    })
}

fn clause(alloc: Global, language: &Language, text: &str) -> Result<Clause, AllocError> {
    let mut literals = Vec::new(alloc);
    for text in text.split('\t') {
        literals.push(literal(alloc, language, text)?)?;
    }
    Ok(Clause {
        literals: Arc::new(alloc, literals)?,
    })
}

fn clauses(alloc: Global, language: &Language, text: &str) -> Result<Vec<Clause>, AllocError> {
    let mut clauses = Vec::new(alloc);
    for text in text.split('|') {
        clauses.push(clause(alloc, language, text)?)?;
    }
    Ok(clauses)
}

/// A state with the clauses of a line.
pub(crate) fn state(alloc: Global, language: &Language, text: &str) -> Result<State, AllocError> {
    Ok(State {
        term: folded(alloc, language, "g{}(N:V{})")?,
        sort: Arc::new(alloc, sort(alloc, "S")?)?,
        clauses: clauses(alloc, language, text)?,
        variables: Vec::new(alloc),
    })
}

/// The answer in a word.
pub(crate) fn answer(verdict: &Verdict) -> &'static str {
    match verdict {
        Verdict::SomeValuation => "some",
        Verdict::NoValuation => "none",
        Verdict::Undecided { over: Some(_), .. } => "over",
        Verdict::Undecided { over: None, .. } => "open",
    }
}
'''


def write_crate():
    folder = os.path.join("crates", "decided", "src")
    os.makedirs(folder)
    for name, text in (("main.rt", CRATE), ("conditions.rt", CONDITIONS)):
        with open(os.path.join(folder, name), "w") as file:
            file.write(text)


def write(made, lines, said):
    with open(lines, "w") as a, open(said, "w") as b:
        b.write(HEAD)
        for clauses in made:
            a.write(line(clauses) + "\n")
            b.write(smt(clauses) + "\n")


def run(words, text=b""):
    """What a program prints, and the seconds of a processor that it takes."""
    before = resource.getrusage(resource.RUSAGE_CHILDREN)
    out = subprocess.run(words, input=text, capture_output=True, check=True).stdout.decode().split()
    after = resource.getrusage(resource.RUSAGE_CHILDREN)
    return out, after.ru_utime + after.ru_stime - before.ru_utime - before.ru_stime


def ask(program, lines, said):
    (ours, whole), (theirs, theirs_whole) = run([program], open(lines, "rb").read()), run(["z3", said])
    _, start = run(["z3", "-version"])
    names = {"some": "sat", "none": "unsat"}
    answers, nanos = ours[:-1], int(ours[-1])
    assert len(answers) == len(theirs), (len(answers), len(theirs))
    differ = [k for k, (a, b) in enumerate(zip(answers, theirs)) if a in names and names[a] != b]
    left = [k for k, a in enumerate(answers) if a not in names]
    print(f"{len(answers)} conditions, {answers.count('some')} some, {answers.count('none')} none")
    print("answers that differ:", differ, "undecided:", left)
    print(f"decide {nanos / 1e9:.4f} s, with reading {whole:.4f} s; Z3 {theirs_whole:.4f} s, of which its start {start:.4f} s")


if __name__ == "__main__":
    words = sys.argv[1:]
    if words[0] == "crate":
        write_crate()
    elif words[0] == "ask":
        ask(*words[1:])
    elif words[0] in ("halves", "apart", "tokens"):
        write([worst(words[0])], *words[1:])
    else:
        write([condition(number) for number in range(int(words[0]), int(words[1]))], *words[2:])
