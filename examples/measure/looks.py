# Look-ups in a full book, and whether they, or entering a module, take memory.
# python3 looks.py crate   writes the crate crates/looks, whose tests are the program; to be added to crates.txt as
#                          looks tests_may=Threads+Wait: and kp_kore kp_text kp_rule_sets kp_modules kp_registry
# python3 looks.py run PROGRAM LIBRARY   times 10,000,000 look-ups, and counts the allocations of 4,096 modules that are
#                          made and entered, of as many that are made and let go, and of the look-ups. PROGRAM is the crate's tests, built
#                          natively; LIBRARY is refuse.so (refuse.c says how it is built)
import os, re, resource, subprocess, sys

LIB = """// Look-ups in a full book.
#![tactic(auto)]

#[cfg(test)]
mod looks;
"""

LOOKS = """use kp_kore::Module;
use kp_modules::{ModuleTable, extend, load};
use kp_registry::{Id, Pass, Ready, Registry, id_of, prepare};
use kp_rule_sets::RuleSet;
use kp_text::{read_definition, read_module};
use std::alloc::{AllocError, Global};
use std::sync::Arc;
use std::sync::Wait;

fn table(alloc: Global) -> Result<ModuleTable, AllocError> {
    match read_definition(alloc, "[] module MAIN endmodule []".as_bytes()) {
        Ok(definition) => match load(alloc, &definition, "MAIN") {
            Ok(table) => Ok(table),
            Err(_) => Err(AllocError),
        },
        Err(_) => Err(AllocError),
    }
}

fn ready_of(alloc: Global, registry: &Registry, number: u64) -> Result<Ready, AllocError> {
    let text = format!(in alloc; "module M{number} endmodule []")?.into_bytes();
    let module = match read_module(alloc, &text) {
        Ok(module) => module,
        Err(_) => return Err(AllocError),
    };
    let rules = rules_of(alloc, registry.table(), &id_of(&text), &module)?;
    prepare(alloc, text, &module, rules, true)
}

fn rules_of(alloc: Global, table: &ModuleTable, id: &Id, added: &Module) -> Result<Arc<RuleSet>, AllocError> {
    match std::str::from_utf8(id) {
        Ok(name) => match extend(alloc, table, &[], name, added) {
            Ok(rules) => Ok(Arc::new(alloc, rules)?),
            Err(_) => Err(AllocError),
        },
        Err(_) => Err(AllocError),
    }
}

fn made(alloc: Global, registry: &Registry) -> Result<Vec<Ready>, AllocError> {
    let mut ready = Vec::new(alloc);
    for number in 0..4096u64 {
        ready.push(ready_of(alloc, registry, number)?)?;
    }
    Ok(ready)
}

fn enter<R: Wait>(rt: &R, registry: &Registry, pass: &mut Pass, ready: Vec<Ready>, ids: &mut [Id]) -> bool {
    for (at, it) in ready.into_iter().enumerate() {
        match registry.register(rt, pass, it) {
            Ok(id) => ids[at] = id,
            Err(_) => return false,
        }
    }
    true
}

fn look<R: Wait>(rt: &R, alloc: Global, registry: &Registry, pass: &mut Pass, ids: &[Id], most: usize) -> bool {
    for k in 0..most {
        match std::str::from_utf8(&ids[k.wrapping_mul(7919) % 4096]) {
            Ok(name) => {
                if !matches!(registry.look(rt, alloc, pass, name), Ok(Some(_))) {
                    return false;
                }
            }
            Err(_) => return false,
        }
    }
    true
}

fn all<R: Wait>(rt: &R, alloc: Global, entered: bool, most: usize) -> Result<bool, AllocError> {
    let (registry, mut pass) = Registry::begin(alloc, table(alloc)?, 1)?;
    let ready = made(alloc, &registry)?;
    let mut ids = vec![in alloc; [0u8; 65]; 4096]?;
    if !entered {
        return Ok(true);
    }
    if !enter(rt, &registry, &mut pass, ready, &mut ids) {
        return Ok(false);
    }
    Ok(look(rt, alloc, &registry, &mut pass, &ids, most))
}

#[test]
fn modules_are_made(rt: HostRuntime) {
    assert_eq!(rt; all(&rt, rt.alloc(), false, 0), Ok(true));
}

#[test]
fn modules_are_entered(rt: HostRuntime) {
    assert_eq!(rt; all(&rt, rt.alloc(), true, 0), Ok(true));
}

#[test]
fn ten_million_look_ups(rt: HostRuntime) {
    assert_eq!(rt; all(&rt, rt.alloc(), true, 10_000_000), Ok(true));
}
"""


def crate():
    os.makedirs("crates/looks/src", exist_ok=True)
    open("crates/looks/src/lib.rt", "w").write(LIB)
    open("crates/looks/src/looks.rt", "w").write(LOOKS)


def processor(program, test):
    before = resource.getrusage(resource.RUSAGE_CHILDREN)
    subprocess.run([program, test], check=True, capture_output=True)
    after = resource.getrusage(resource.RUSAGE_CHILDREN)
    return after.ru_utime + after.ru_stime - before.ru_utime - before.ru_stime


def counted(program, library, test):
    it = subprocess.run([program, test], check=True, capture_output=True, text=True, env=dict(os.environ, LD_PRELOAD=library, COUNT="1"))
    return int(re.search(r"allocations: (\d+)", it.stderr)[1])


def run(program, library):
    looks, full = (processor(program, f"looks::{it}") for it in ("ten_million_look_ups", "modules_are_entered"))
    print(f"10,000,000 look-ups: {looks - full:.2f} s of a processor")
    tests = ("modules_are_made", "modules_are_entered", "ten_million_look_ups")
    made, entered, looked = (counted(program, os.path.abspath(library), f"looks::{it}") for it in tests)
    print(f"allocations: {made} with 4,096 modules made, {entered} with as many entered: {'none' if entered == made else 'SOME'} by entering")
    print(f"{looked} with 10,000,000 look-ups besides: {'none' if looked == entered else 'SOME'} by looking up")


if sys.argv[1:] == ["crate"]:
    crate()
else:
    run(*sys.argv[2:])
