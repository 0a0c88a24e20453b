#!/usr/bin/env bash
# Time and memory of parsing grammars, against the number of token kinds and the number of rules.
#
# It makes a scratch repository of the library and of a small program, proves both (which takes minutes where nothing of them
# is kept on this machine), and runs the program. The program prints a row for each size: rules, token kinds, milliseconds of
# processor time, and the peak of resident memory so far; sizes rise within a series, so the peak is that of the row. Time and
# memory should rise in proportion to rules times kinds: the table takes four bytes for each place and each rule or repetition
# that the token there does not rule out, and here none is. The third series is the test of grammars, over chains of rules that can take nothing, where it is quadratic.
set -euo pipefail
. "$(dirname "$0")/scratch.sh"
scratch_repository peg_bench 'pj_peg pj_peg_grammar' pj_base pj_peg_grammar pj_peg
cat > "$bench/src/main.rt" <<'PROGRAM'
// Rows of time and memory.
#![tactic(auto)]

use pj_peg::{Grammar, WellFormed, run};
use pj_peg_grammar::{Item, Items};
use std::alloc::{AllocError, Global};
use std::time::CpuClock;
use std::{env, fs, io};

// A rule takes a token and goes on to the next rule, or takes any token; the last one is a repetition.
fn rules(alloc: Global, count: u16) -> Result<Items, AllocError> {
    let mut rules = Vec::new(alloc);
    for rule in 1..count {
        let step = Item::Seq(vec![in alloc; Item::Token(1), Item::Rule(rule)]?);
        rules.push(Item::Choice(vec![in alloc; step, Item::Any]?))?;
    }
    rules.push(Item::Star(Box::new(alloc, Item::Token(1))?))?;
    Ok(rules)
}

// A rule is the next one, and the last one takes nothing.
fn forward(alloc: Global, count: u16) -> Result<Items, AllocError> {
    let mut rules = Vec::new(alloc);
    for rule in 1..count {
        rules.push(Item::Rule(rule))?;
    }
    rules.push(Item::Seq(Vec::new(alloc)))?;
    Ok(rules)
}

// A rule is the one before it, and the first one takes nothing.
fn backward(alloc: Global, count: u16) -> Result<Items, AllocError> {
    let mut rules = Vec::new(alloc);
    rules.push(Item::Seq(Vec::new(alloc)))?;
    for rule in 1..count {
        rules.push(Item::Rule(rule - 1))?;
    }
    Ok(rules)
}

fn checked(alloc: Global, rules: Items) -> Option<WellFormed> {
    if rules.len() == 0 || rules.len() > 65536 {
        return None;
    }
    Grammar::new(rules).checked(alloc).ok()
}

fn peak(rt: &HostRuntime) -> io::Result<String> {
    let status = fs::read_to_string(rt, "/proc/self/status")?;
    for line in status.as_str().lines() {
        if line.starts_with("VmHWM:") {
            return Ok(String::from_str(rt.alloc(), line)?);
        }
    }
    Ok(String::new(rt.alloc()))
}

fn run_row(rt: &HostRuntime, rule_count: u16, kind_count: usize) -> io::Result<()> {
    let alloc = rt.alloc();
    let mut kinds: Vec<u16> = Vec::new(alloc);
    kinds.resize(kind_count, 1)?;
    if kinds.len() > 200_000 {
        return Ok(());
    }
    let Some(grammar) = checked(alloc, rules(alloc, rule_count)?) else {
        return Ok(());
    };
    let start = rt.process_cpu_time()?.as_millis();
    let ok = run(alloc, &grammar, &kinds).is_ok();
    let end = rt.process_cpu_time()?.as_millis();
    let time = end.saturating_sub(start);
    let peak = peak(rt)?;
    println!(rt; "run: {rule_count} rules, {kind_count} kinds, {time} ms, {peak}, {ok}")
}

fn checked_row(rt: &HostRuntime, name: &str, rules: Items) -> io::Result<()> {
    let count = rules.len();
    let start = rt.process_cpu_time()?.as_millis();
    let ok = checked(rt.alloc(), rules).is_some();
    let end = rt.process_cpu_time()?.as_millis();
    let time = end.saturating_sub(start);
    println!(rt; "checked: {count} rules, {name}, {time} ms, {ok}")
}

fn series(rt: &HostRuntime, name: &str) -> io::Result<()> {
    let alloc = rt.alloc();
    if name == "kinds" {
        for count in [25_000usize, 50_000, 100_000, 200_000] {
            run_row(rt, 180, count)?;
        }
    } else if name == "rules" {
        for count in [45u16, 90, 180, 360] {
            run_row(rt, count, 50_000)?;
        }
    } else if name == "checked" {
        for count in [1_000u16, 2_000, 4_000, 8_000] {
            checked_row(rt, "forward", forward(alloc, count)?)?;
            checked_row(rt, "backward", backward(alloc, count)?)?;
        }
    }
    Ok(())
}

fn main(rt: HostRuntime) -> io::Result<()> {
    for word in env::args(&rt)? {
        series(&rt, word.as_str())?;
    }
    Ok(())
}
PROGRAM
cd "$bench"
for series in kinds rules checked; do
    rt run -- "$series"
done
