#!/usr/bin/env bash
# Time of reading XPath expressions, against the length of their text.
#
# It makes a scratch repository of the libraries and of a small program, proves them (which takes minutes where nothing of them
# is kept on this machine), and runs the program. The program reads texts of five shapes, each in three sizes: a chain of `1 + `,
# one of `a/`, one of `a, `, a sum of groups that each have 200 parentheses, and a `for` of as many variables, each with the first
# one in its expression. A row has the shape, the bytes, whether the text was taken, and nanoseconds of processor time for each
# byte, the best of three. They should stay the same whatever the size.
#
# Short texts, of 100 to 500 characters as rules have them, are read with a parser that is kept and with one that is made for each
# text: a row has the characters, and nanoseconds of processor time for each text with either.
set -euo pipefail
. "$(dirname "$0")/scratch.sh"
libraries='pj_base pj_xparse'
scratch_repository xparse_bench "$libraries" $(with_lower_crates $libraries)
cat > "$bench/src/main.rt" <<'PROGRAM'
// Rows of time.
#![tactic(auto)]

use pj_base::Names;
use pj_xparse::{Parser, parse, parse_with};
use std::alloc::{AllocError, Global};
use std::io;
use std::time::CpuClock;

fn now(rt: &HostRuntime) -> io::Result<u64> {
    Ok((rt.process_cpu_time()?.as_micros() % (1 << 60)) as u64)
}

fn repeated(alloc: Global, part: &str, count: u32) -> Result<String, AllocError> {
    let mut text = String::new(alloc);
    for _ in 0..count {
        text.push_str(part)?;
    }
    Ok(text)
}

// The part so many times, and a literal behind it.
fn chain(alloc: Global, part: &str, count: u32) -> Result<String, AllocError> {
    let mut text = repeated(alloc, part, count)?;
    text.push_str("1")?;
    Ok(text)
}

// 200 parentheses around a literal, and a sign behind them.
fn group(alloc: Global) -> Result<String, AllocError> {
    let open = repeated(alloc, "(", 200)?;
    let close = repeated(alloc, ")", 200)?;
    let (open, close) = (open.as_str(), close.as_str());
    format!(in alloc; "{open}1{close} + ")
}

// So many variables, each with the first one in its expression.
fn bindings(alloc: Global, count: u32) -> Result<String, AllocError> {
    let mut text = String::from_str(alloc, "for $x in 1, ")?;
    for i in 0..count {
        let binding = format!(in alloc; "$x{i} in $x, ")?;
        text.push_str(binding.as_str())?;
    }
    text.push_str("$y in 1 return 1")?;
    Ok(text)
}

fn row(rt: &HostRuntime, shape: &str, text: &String) -> io::Result<()> {
    let variables = Names::new(rt.alloc());
    let mut best = u64::MAX;
    let mut is_taken = false;
    for _ in 0..3 {
        let start = now(rt)?;
        is_taken = parse(rt.alloc(), text.as_str(), &variables).is_ok();
        best = best.min(now(rt)?.saturating_sub(start));
    }
    let bytes = text.as_str().len() as u64;
    let rate = best.saturating_mul(1000) / bytes.max(1);
    println!(rt; "{shape}, {bytes} bytes, taken: {is_taken}, {rate} ns/byte")
}

// How many short texts are read before the clock is looked at.
const TEXTS: u32 = 1000;

// A path, and a union with so many more.
fn rule_text(alloc: Global, more: u32) -> Result<String, AllocError> {
    let mut text = String::from_str(alloc, "//MethodDeclaration[@Name = 'toString']")?;
    for _ in 0..more {
        text.push_str(" | //ClassDeclaration[count(.//Block) > 3]/ancestor::Block[1]")?;
    }
    Ok(text)
}

// The time in which the short texts are read, with the parser or, where there is none, with one for each.
fn time_of_texts(rt: &HostRuntime, parser: Option<&Parser>, text: &str) -> io::Result<u64> {
    let variables = Names::new(rt.alloc());
    let start = now(rt)?;
    let mut taken: u32 = 0;
    for _ in 0..TEXTS {
        let read = match parser {
            Some(parser) => parse_with(rt.alloc(), parser, text, &variables),
            None => parse(rt.alloc(), text, &variables),
        };
        if read.is_ok() {
            taken = taken.saturating_add(1);
        }
    }
    let time = now(rt)?.saturating_sub(start);
    if taken < TEXTS {
        println!(rt; "a short text was not taken")?;
    }
    Ok(time)
}

fn best_of_texts(rt: &HostRuntime, parser: Option<&Parser>, text: &str) -> io::Result<u64> {
    let mut best = u64::MAX;
    for _ in 0..3 {
        best = best.min(time_of_texts(rt, parser, text)?);
    }
    // So many microseconds for a thousand texts are so many nanoseconds for one.
    Ok(best)
}

fn short_rows(rt: &HostRuntime) -> io::Result<()> {
    let Ok(parser) = Parser::new(rt.alloc()) else {
        return println!(rt; "out of memory");
    };
    for more in [1, 3, 5, 7] {
        let text = rule_text(rt.alloc(), more)?;
        let kept = best_of_texts(rt, Some(&parser), text.as_str())?;
        let made = best_of_texts(rt, None, text.as_str())?;
        let characters = text.as_str().len();
        println!(rt; "short, {characters} characters, kept: {kept}, made for each: {made} ns/text")?;
    }
    Ok(())
}

fn main(rt: HostRuntime) -> io::Result<()> {
    let alloc = rt.alloc();
    let group = group(alloc)?;
    for thousands in [250, 500, 1000] {
        row(&rt, "sums", &chain(alloc, "1 + ", thousands * 250)?)?;
        row(&rt, "steps", &chain(alloc, "a/", thousands * 500)?)?;
        row(&rt, "commas", &chain(alloc, "a, ", thousands * 333)?)?;
        row(&rt, "groups", &chain(alloc, group.as_str(), thousands * 1000 / 404)?)?;
        row(&rt, "bindings", &bindings(alloc, thousands * 70)?)?;
    }
    short_rows(&rt)
}
PROGRAM
cd "$bench"
rt run | grep -e ' ns/byte' -e ' ns/text'
