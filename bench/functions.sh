#!/usr/bin/env bash
# Time of the functions of XPath, each at three sizes, and of patterns over many short texts.
#
# It makes a scratch repository of the libraries and of a small program, proves both (which takes minutes where nothing of them
# is kept on this machine), and runs the program. A row of the first part has a call, the size of its argument (characters of a
# text, or items of a sequence) at 25,000, 50,000 and 100,000, and nanoseconds of processor time for each character or item; what
# takes time in proportion to its arguments has the same at each size, and what stands in an order (`distinct-values`, a long map
# of `translate`) some more at twice the size. The texts and sequences are those on which a plain search would be slow: a part
# that almost stands at each place, values that all differ, a map as long as the text.
#
# A row of the second part has a pattern, which is compiled once, then the microseconds of that, the texts that it is looked for
# in, how many of them it is found in, and how many it goes through in a second. Each search makes a matcher of its own. The last
# row is the search in the empty string, which is little more than the making of a matcher.
set -euo pipefail
. "$(dirname "$0")/scratch.sh"
libraries='pj_base pj_xexpressions pj_xfuncs pj_xpatterns pj_xvalue'
scratch_repository functions_bench "anyhow $libraries" $(with_lower_crates $libraries)
cat > "$bench/src/main.rt" <<'PROGRAM'
// Rows of time.
#![tactic(auto)]

use anyhow::Result;
use pj_base::{NoMemory, Text};
use pj_xexpressions::{Expr, Function};
use pj_xfuncs::{Patterns, call};
use pj_xvalue::{Arguments, BoundVars, Item, Sequence};
use std::alloc::Global;
use std::time::CpuClock;

type Made<T> = std::result::Result<T, NoMemory>;

fn now(rt: &HostRuntime) -> Result<u64> {
    Ok((rt.process_cpu_time()?.as_nanos() % (1 << 62)) as u64)
}

// The text, so many times.
fn repeated(alloc: Global, part: &str, count: u32) -> Made<String> {
    let mut text = String::new(alloc);
    for _ in 0..count {
        text.push_str(part)?;
    }
    Ok(text)
}

// So many characters that all differ, from one on.
fn different(alloc: Global, first: u32, count: u32) -> Made<String> {
    let mut text = String::new(alloc);
    for i in 0..count {
        if let Some(c) = char::from_u32(first.saturating_add(i)) {
            text.push(c)?;
        }
    }
    Ok(text)
}

fn one<'t>(alloc: Global, item: Item<'t>) -> Made<Sequence<'t>> {
    let mut items = Sequence::new(alloc);
    items.push(item)?;
    Ok(items)
}

fn nothing<'t>(alloc: Global) -> Made<Arguments<'t>> {
    Ok(Arguments::new(alloc))
}

fn with<'t>(mut arguments: Arguments<'t>, items: Sequence<'t>) -> Made<Arguments<'t>> {
    arguments.push(items)?;
    Ok(arguments)
}

fn of_text<'t>(alloc: Global, text: &'t str) -> Made<Arguments<'t>> {
    with(nothing(alloc)?, one(alloc, Item::Borrowed(text))?)
}

fn of_two_texts<'t>(alloc: Global, text: &'t str, other: &'t str) -> Made<Arguments<'t>> {
    with(of_text(alloc, text)?, one(alloc, Item::Borrowed(other))?)
}

fn of_three_texts<'t>(alloc: Global, text: &'t str, other: &'t str, last: &'t str) -> Made<Arguments<'t>> {
    with(of_two_texts(alloc, text, other)?, one(alloc, Item::Borrowed(last))?)
}

// Integers from 0 on, as many as that, or all the same.
fn integers<'t>(alloc: Global, count: u32, differ: bool) -> Made<Sequence<'t>> {
    let mut items = Sequence::new(alloc);
    for i in 0..count {
        items.push(Item::Int(if differ { i64::from(i) } else { 7 }))?;
    }
    Ok(items)
}

// Strings that begin alike and differ at the end, or are all the same.
fn strings<'t>(alloc: Global, count: u32, differ: bool) -> Made<Sequence<'t>> {
    let mut items = Sequence::new(alloc);
    for i in 0..count {
        let number = if differ { i } else { 7 };
        let text = format!(in alloc; "a.b.c.Name{number}")?;
        items.push(Item::Str(Text::from_string(text)))?;
    }
    Ok(items)
}

// The call of a function with the context item and these two or three, as it is written.
fn expression(alloc: Global, function: Function, pattern: &str) -> Made<Expr> {
    let mut arguments = Vec::new(alloc);
    arguments.push(Expr::ContextItem)?;
    arguments.push(Expr::String(Text::from_str(alloc, pattern)?))?;
    Ok(Expr::Call(function, arguments))
}

fn patterns_of(alloc: Global, pattern: &str) -> Made<Patterns> {
    let expr = expression(alloc, Function::Matches, pattern)?;
    let variables = BoundVars::new(alloc);
    match Patterns::of(alloc, &expr, &variables) {
        Ok(patterns) => Ok(patterns),
        Err(_) => Err(NoMemory),
    }
}

// Calls the function often enough, and prints nanoseconds for each character or item, and how many items came last.
fn row(rt: &HostRuntime, name: &str, size: u32, function: Function, arguments: &Arguments<'_>) -> Result<()> {
    let alloc = rt.alloc();
    let patterns = patterns_of(alloc, "[0-9]+")?;
    let rounds = (2_000_000 / size.max(1)).max(1);
    let mut count = 0usize;
    let start = now(rt)?;
    for _ in 0..rounds {
        match call(alloc, function, arguments, &patterns) {
            Ok(items) => count = items.len(),
            Err(_) => count = usize::MAX,
        }
    }
    let spent = now(rt)?.saturating_sub(start);
    let all = u64::from(rounds).saturating_mul(u64::from(size)).max(1);
    let tenths = spent.saturating_mul(10) / all;
    let (whole, part) = (tenths / 10, tenths % 10);
    println!(rt; "{name} | {size} | {whole}.{part} ns | {count} items")?;
    Ok(())
}

fn of_one(rt: &HostRuntime, name: &str, size: u32, function: Function, text: &str) -> Result<()> {
    row(rt, name, size, function, &of_text(rt.alloc(), text)?)
}

fn of_two(rt: &HostRuntime, name: &str, size: u32, function: Function, text: &str, other: &str) -> Result<()> {
    row(rt, name, size, function, &of_two_texts(rt.alloc(), text, other)?)
}

fn of_three(rt: &HostRuntime, name: &str, size: u32, function: Function, text: &str, other: &str, last: &str) -> Result<()> {
    row(rt, name, size, function, &of_three_texts(rt.alloc(), text, other, last)?)
}

fn of_items(rt: &HostRuntime, name: &str, size: u32, function: Function, items: Sequence<'_>) -> Result<()> {
    row(rt, name, size, function, &with(nothing(rt.alloc())?, items)?)
}

fn of_items_and(rt: &HostRuntime, name: &str, size: u32, function: Function, items: Sequence<'_>, last: Item<'static>) -> Result<()> {
    let last = one(rt.alloc(), last)?;
    row(rt, name, size, function, &with(with(nothing(rt.alloc())?, items)?, last)?)
}

fn whole_texts(rt: &HostRuntime, size: u32) -> Result<()> {
    let plain = repeated(rt.alloc(), "a", size)?;
    of_one(rt, "string-length", size, Function::StringLength, plain.as_str())?;
    of_one(rt, "upper-case", size, Function::UpperCase, plain.as_str())?;
    of_one(rt, "lower-case", size, Function::LowerCase, plain.as_str())?;
    of_two(rt, "starts-with", size, Function::StartsWith, plain.as_str(), plain.as_str())?;
    of_two(rt, "ends-with", size, Function::EndsWith, plain.as_str(), plain.as_str())
}

fn parts_of_texts(rt: &HostRuntime, size: u32) -> Result<()> {
    let plain = repeated(rt.alloc(), "a", size)?;
    let mut almost = repeated(rt.alloc(), "a", size / 2)?;
    almost.push('b')?;
    of_two(rt, "contains", size, Function::Contains, plain.as_str(), almost.as_str())?;
    of_two(rt, "substring-before", size, Function::SubstringBefore, plain.as_str(), almost.as_str())?;
    of_two(rt, "substring-after", size, Function::SubstringAfter, plain.as_str(), almost.as_str())
}

fn substrings(rt: &HostRuntime, size: u32) -> Result<()> {
    let plain = repeated(rt.alloc(), "a", size)?;
    let items = one(rt.alloc(), Item::Borrowed(plain.as_str()))?;
    of_items_and(rt, "substring from 2", size, Function::Substring, items, Item::Int(2))
}

fn spaces(rt: &HostRuntime, size: u32) -> Result<()> {
    let words = repeated(rt.alloc(), " ab  c", size / 6)?;
    of_one(rt, "normalize-space", size, Function::NormalizeSpace, words.as_str())
}

fn short_map(rt: &HostRuntime, size: u32) -> Result<()> {
    let plain = repeated(rt.alloc(), "a", size)?;
    of_three(rt, "translate, a map of 3", size, Function::Translate, plain.as_str(), "abc", "ABC")
}

fn long_map(rt: &HostRuntime, size: u32) -> Result<()> {
    let from = different(rt.alloc(), 0x10000, size)?;
    let to = different(rt.alloc(), 0x50000, size)?;
    of_three(rt, "translate, a map as long as the text", size, Function::Translate, from.as_str(), from.as_str(), to.as_str())
}

fn patterns_in_texts(rt: &HostRuntime, size: u32) -> Result<()> {
    let plain = repeated(rt.alloc(), "a", size)?;
    of_two(rt, "matches, not found", size, Function::Matches, plain.as_str(), "[0-9]+")?;
    let digits = repeated(rt.alloc(), "ab1c", size / 4)?;
    of_three(rt, "replace, a match for 4 characters", size, Function::Replace, digits.as_str(), "[0-9]+", "-")?;
    of_two(rt, "tokenize, a match for 4 characters", size, Function::Tokenize, digits.as_str(), "[0-9]+")
}

fn any_items(rt: &HostRuntime, size: u32) -> Result<()> {
    of_items(rt, "count", size, Function::Count, integers(rt.alloc(), size, true)?)?;
    of_items(rt, "exists", size, Function::Exists, integers(rt.alloc(), size, true)?)?;
    of_items(rt, "empty", size, Function::Empty, integers(rt.alloc(), size, true)?)?;
    of_items(rt, "data", size, Function::Data, strings(rt.alloc(), size, true)?)
}

fn moved_items(rt: &HostRuntime, size: u32) -> Result<()> {
    of_items(rt, "reverse", size, Function::Reverse, strings(rt.alloc(), size, true)?)?;
    of_items_and(rt, "subsequence from 2", size, Function::Subsequence, integers(rt.alloc(), size, true)?, Item::Int(2))?;
    of_items_and(rt, "index-of, strings", size, Function::IndexOf, strings(rt.alloc(), size, false)?, Item::Borrowed("a.b.c.Name7"))?;
    of_items_and(rt, "string-join", size, Function::StringJoin, strings(rt.alloc(), size, true)?, Item::Borrowed(", "))
}

fn distinct(rt: &HostRuntime, size: u32) -> Result<()> {
    of_items(rt, "distinct-values, integers that differ", size, Function::DistinctValues, integers(rt.alloc(), size, true)?)?;
    of_items(rt, "distinct-values, one integer", size, Function::DistinctValues, integers(rt.alloc(), size, false)?)?;
    of_items(rt, "distinct-values, strings that differ", size, Function::DistinctValues, strings(rt.alloc(), size, true)?)?;
    of_items(rt, "distinct-values, one string", size, Function::DistinctValues, strings(rt.alloc(), size, false)?)
}

fn sums(rt: &HostRuntime, size: u32) -> Result<()> {
    of_items(rt, "sum", size, Function::Sum, integers(rt.alloc(), size, true)?)?;
    of_items(rt, "min", size, Function::Min, integers(rt.alloc(), size, true)?)?;
    of_items(rt, "max", size, Function::Max, integers(rt.alloc(), size, true)?)
}

// `concat` of so many arguments.
fn many_arguments(rt: &HostRuntime, size: u32) -> Result<()> {
    let mut arguments = Arguments::new(rt.alloc());
    for _ in 0..size {
        arguments.push(one(rt.alloc(), Item::Borrowed("a"))?)?;
    }
    row(rt, "concat", size, Function::Concat, &arguments)
}

fn of_texts(rt: &HostRuntime, size: u32) -> Result<()> {
    whole_texts(rt, size)?;
    parts_of_texts(rt, size)?;
    substrings(rt, size)?;
    spaces(rt, size)?;
    short_map(rt, size)?;
    long_map(rt, size)?;
    patterns_in_texts(rt, size)
}

fn of_sequences(rt: &HostRuntime, size: u32) -> Result<()> {
    any_items(rt, size)?;
    moved_items(rt, size)?;
    distinct(rt, size)?;
    sums(rt, size)?;
    many_arguments(rt, size)
}

// A pattern that is looked for in texts, which stand one to a line.
fn over_texts(rt: &HostRuntime, pattern: &str, texts: &str) -> Result<()> {
    let alloc = rt.alloc();
    let mut calls = Vec::new(alloc);
    for text in texts.lines() {
        calls.push(of_two_texts(alloc, text, pattern)?)?;
    }
    let start = now(rt)?;
    let patterns = patterns_of(alloc, pattern)?;
    let compiling = now(rt)?.saturating_sub(start) / 1000;
    let mut found = 0u32;
    let start = now(rt)?;
    for arguments in &calls {
        if let Ok(items) = call(alloc, Function::Matches, arguments, &patterns) {
            if let [Item::Bool(true)] = items.as_slice() {
                found = found.saturating_add(1);
            }
        }
    }
    let spent = now(rt)?.saturating_sub(start).max(1);
    let count = calls.len() as u64;
    let rate = count.saturating_mul(1_000_000_000) / spent;
    println!(rt; "{pattern} | compiled in {compiling} us | {count} texts | found in {found} | {rate} matches/s")?;
    Ok(())
}

fn short_texts(alloc: Global, count: u32) -> Made<String> {
    let mut texts = String::new(alloc);
    for i in 0..count {
        let line = if i % 3 == 0 {
            format!(in alloc; "someName{i}\n")?
        } else {
            format!(in alloc; "SomeName{i}\n")?
        };
        texts.push_str(line.as_str())?;
    }
    Ok(texts)
}

fn main(rt: HostRuntime) -> Result<()> {
    for size in [25_000, 50_000, 100_000] {
        of_texts(&rt, size)?;
        of_sequences(&rt, size)?;
    }
    let texts = short_texts(rt.alloc(), 10_000)?;
    over_texts(&rt, "^[A-Z][a-zA-Z0-9]*$", texts.as_str())?;
    over_texts(&rt, "Name1", texts.as_str())?;
    over_texts(&rt, "^(get|set|is)[A-Z].*$", texts.as_str())?;
    let blank = repeated(rt.alloc(), "\n", 10_000)?;
    over_texts(&rt, "^[A-Z][a-zA-Z0-9]*$", blank.as_str())
}
PROGRAM
cd "$bench"
rt run > "$scratch/log" 2>&1 || { tail -n 40 "$scratch/log"; exit 1; }
out/functions_bench | LC_ALL=C sort -s -t '|' -k1,1
