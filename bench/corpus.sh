#!/usr/bin/env bash
# Real Java sources: which files of a folder have a syntax tree, why the others have none, and what parsing costs.
#
#   bench/corpus.sh FOLDER      as the module java.base of Debian's package openjdk-17-source, unpacked
#
# It makes a scratch repository of the libraries and of a small program, proves them (which takes minutes where nothing of them
# is kept on this machine), and runs the program: read_file and parse_file_by over each file of the folder that ends in .java,
# module-info.java left out. For each file without a tree it prints the reason, then the counts, tokens (comments among them) and
# bytes of a second of processor time, and the peak of resident memory.
set -euo pipefail
folder=$(cd "$1" && pwd)
. "$(dirname "$0")/scratch.sh"
scratch_repository corpus_bench 'anyhow pj_grammar pj_lex pj_parse pj_peg pj_peg_grammar pj_source' \
    pj_base pj_tree pj_peg_grammar pj_peg pj_patterns pj_source pj_lex pj_shape pj_grammar pj_literals pj_parse
cat > "$bench/src/main.rt" <<'PROGRAM'
// The trees of many files.
#![tactic(auto)]

ghost use Rattle.std.specs.Prelude.{◌≡◌, ◌≤◌, length};
ghost use Rattle.pj_grammar.specs.Java17.{java_17_forms};
ghost use Rattle.pj_peg_grammar.specs.Form.{forms_of};

use pj_grammar::java_17;
use pj_lex::Lexer;
use pj_parse::{FileRefused, parse_file_by, read_file};
use pj_peg::WellFormed;
use pj_source::Source;
use std::alloc::Global;
use std::time::CpuClock;
use std::{env, fs};

// What was checked. Times are in microseconds.
#[derive(Clone, Copy)]
struct Sums {
    files: u64,
    trees: u64,
    bytes: u64,
    tokens: u64,
    checking: u64,
    slowest: u64,
}

fn now(rt: &HostRuntime) -> anyhow::Result<u64> {
    Ok((rt.process_cpu_time()?.as_micros() % (1 << 60)) as u64)
}

// The tokens of a source, up to its end or a fault.
fn count_tokens(source: &Source) -> u64 {
    let mut count = 0u64;
    let mut lexer = Lexer::over(source.text());
    for _ in 0..1_000_000_000u64 {
        match lexer.next_token() {
            Some(Ok(_)) => count = count.saturating_add(1),
            _ => return count,
        }
    }
    count
}

fn tokens_in(alloc: Global, bytes: &[u8]) -> u64 {
    if bytes.len() > 4_000_000_000 {
        return 0;
    }
    match Source::read(alloc, bytes) {
        Ok(source) => count_tokens(&source),
        Err(_) => 0,
    }
}

// Why the bytes have no tree, or `None` where they have one.
fn refusal_of(alloc: Global, grammar: &WellFormed, bytes: &[u8]) -> Option<FileRefused>
    requires grammar { forms_of grammar.now ≡ java_17_forms }
    requires short { length bytes.now ≤ 1048576 }
{
    let source = match read_file(alloc, bytes) {
        Ok(source) => source,
        Err(refused) => return Some(refused),
    };
    match parse_file_by(alloc, grammar, &source) {
        Ok(_) => None,
        Err(refused) => Some(refused),
    }
}

// Says why there is no tree.
fn say_why(rt: &HostRuntime, path: &str, refused: &FileRefused) -> anyhow::Result<()> {
    match refused {
        FileRefused::Fault(fault) => println!(rt; "{path}: {fault}")?,
        FileRefused::Memory => println!(rt; "{path}: out of memory")?,
    }
    Ok(())
}

fn add_file(
    rt: &HostRuntime,
    grammar: &WellFormed,
    path: &str,
    sums: Sums,
) -> anyhow::Result<Sums>
    requires { forms_of grammar.now ≡ java_17_forms }
{
    let alloc = rt.alloc();
    let bytes = fs::read(rt, path)?;
    let count = bytes.len() as u64;
    let tokens = tokens_in(alloc, &bytes);
    if bytes.len() > 1_048_576 {
        println!(rt; "{path}: more than 1,048,576 bytes")?;
        return Ok(sums);
    }
    let start = now(rt)?;
    let refused = refusal_of(alloc, grammar, &bytes);
    let took = now(rt)?.saturating_sub(start);
    let has_tree = refused.is_none();
    if let Some(refused) = &refused {
        say_why(rt, path, refused)?;
    }
    Ok(Sums {
        files: sums.files.saturating_add(1),
        trees: sums.trees.saturating_add(u64::from(has_tree)),
        bytes: sums.bytes.saturating_add(count),
        tokens: sums.tokens.saturating_add(tokens),
        checking: sums.checking.saturating_add(took),
        slowest: sums.slowest.max(took),
    })
}

fn peak(rt: &HostRuntime) -> anyhow::Result<String> {
    let status = fs::read_to_string(rt, "/proc/self/status")?;
    for line in status.as_str().lines() {
        if line.starts_with("VmHWM:") {
            return Ok(String::from_str(rt.alloc(), line)?);
        }
    }
    Ok(String::new(rt.alloc()))
}

// Counts in a thousandth of a second, which is thousands in a second.
fn rate(count: u64, micros: u64) -> u64 {
    count.saturating_mul(1000) / micros.max(1)
}

fn check_all(rt: &HostRuntime, list: &str) -> anyhow::Result<()> {
    let mut sums = Sums {
        files: 0,
        trees: 0,
        bytes: 0,
        tokens: 0,
        checking: 0,
        slowest: 0,
    };
    let names = fs::read_to_string(rt, list)?;
    let start = now(rt)?;
    let Ok(grammar) = java_17(rt.alloc()) else {
        println!(rt; "out of memory")?;
        return Ok(());
    };
    let making = now(rt)?.saturating_sub(start);
    for name in names.as_str().lines() {
        sums = add_file(rt, &grammar, name, sums)?;
    }
    let Sums { files, trees, bytes, tokens, checking, slowest } = sums;
    let (tokens_rate, bytes_rate) = (rate(tokens, checking), rate(bytes, checking));
    let (all, longest) = (checking / 1000, slowest / 1000);
    let peak = peak(rt)?;
    println!(rt; "{trees} of {files} files have a tree; {bytes} bytes, {tokens} tokens, {all} ms")?;
    println!(rt; "the grammar was made in {making} microseconds")?;
    println!(rt; "{tokens_rate} thousand tokens/s, {bytes_rate} KB/s, slowest file {longest} ms, {peak}")?;
    Ok(())
}

fn main(rt: HostRuntime) -> anyhow::Result<()> {
    for word in env::args(&rt)?.skip(1) {
        check_all(&rt, word.as_str())?;
    }
    Ok(())
}
PROGRAM
find "$folder" -name '*.java' ! -name module-info.java | sort > "$scratch/list"
cd "$bench"
rt run -- "$scratch/list" | grep -E '^/| of .* files have a tree|tokens/s|grammar was made' | sed "s|^$folder/||"
