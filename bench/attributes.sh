#!/usr/bin/env bash
# Time of attributes, against the size of a file.
#
# It makes a scratch repository of the libraries and of a small program, proves both (which takes minutes where nothing of them
# is kept on this machine), and runs the program. The program parses one class with 250, 500 and 1,000 times the same
# members, finds its declarations, and asks every attribute of every node. It prints a row: bytes, nodes, attributes, how many of
# them have a value, milliseconds of processor time for the declarations, and nanoseconds for each attribute. The last should
# grow no more than by the logarithm of the size of the file.
set -euo pipefail
. "$(dirname "$0")/scratch.sh"
libraries='pj_attrs pj_parse pj_source pj_symbols pj_tree pj_xvalue'
scratch_repository attributes_bench "$libraries" $(with_lower_crates $libraries)
{
    cat <<'PROGRAM'
// Rows of time.
#![tactic(auto)]

ghost use Rattle.std.specs.Prelude.{◌≡◌, Ok};
ghost use Rattle.pj_parse.specs.Parses.{Parses, file_parsed};
ghost use Rattle.pj_parse.specs.PoolText.{IsPoolOf};

use pj_attrs::{Facts, tokens_are_in_order};
use pj_parse::{Parsed, parse};
use pj_source::Source;
use pj_symbols::Symbols;
use pj_tree::Node;
use pj_xvalue::Attributes;
use std::alloc::{AllocError, Global};
use std::io;
use std::time::CpuClock;

PROGRAM
    text_of_members
    cat <<'PROGRAM'
// How many attributes have a value.
fn all_attributes<A: Attributes>(facts: &A, nodes: u32) -> (u64, u64)
    requires { nodes ≡ A.nodes facts.now }
{
    let mut asked: u64 = 0;
    let mut there: u64 = 0;
    for n in 0..nodes {
        for name in facts.names(Node(n)) {
            asked = asked.saturating_add(1);
            if facts.attribute(Node(n), name).is_some() {
                there = there.saturating_add(1);
            }
        }
    }
    (asked, there)
}

// The row of a file.
fn row_of_file(rt: &HostRuntime, source: &Source, parsed: &Parsed<'_>) -> io::Result<()>
    requires parses { Parses source.now.text (Ok (file_parsed parsed.now)) }
    requires text { parsed.now.tree.text ≡ source.now.text }
    requires pool { IsPoolOf parsed.now.tree parsed.now.pool }
{
    tokens_are_in_order(source.text(), parsed);
    let start = rt.process_cpu_time()?.as_nanos();
    let Ok(symbols) = Symbols::of(rt.alloc(), &parsed.tree) else {
        return println!(rt; "no memory");
    };
    let middle = rt.process_cpu_time()?.as_nanos();
    let facts = Facts::new(source, parsed, &symbols);
    let (asked, there) = all_attributes(&facts, parsed.tree.len());
    let end = rt.process_cpu_time()?.as_nanos();
    let declared = middle.saturating_sub(start) / 1_000_000;
    let each = end.saturating_sub(middle) / u128::from(asked.max(1));
    let bytes = source.text().len();
    let nodes = parsed.tree.len();
    println!(rt; "{bytes} bytes, {nodes} nodes, {asked} attributes of which {there} have a value: declarations {declared} ms, {each} ns an attribute")
}

// The row of a source.
fn row_of_source(rt: &HostRuntime, source: &Source) -> io::Result<()> {
    match parse(rt.alloc(), source) {
        Ok(parsed) => row_of_file(rt, source, &parsed),
        Err(_) => println!(rt; "no tree"),
    }
}

// The row of so many members.
fn row(rt: &HostRuntime, members: u32) -> io::Result<()> {
    let text = text_of(rt.alloc(), members)?;
    if text.len() > 100_000_000 {
        return Ok(());
    }
    match Source::read(rt.alloc(), text.as_str().as_bytes()) {
        Ok(source) => row_of_source(rt, &source),
        Err(_) => println!(rt; "no text"),
    }
}

fn main(rt: HostRuntime) -> io::Result<()> {
    for members in [250u32, 500, 1000] {
        row(&rt, members)?;
    }
    Ok(())
}
PROGRAM
} > "$bench/src/main.rt"
cd "$bench"
rt run
