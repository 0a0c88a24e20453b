#!/usr/bin/env bash
# Time of loading rulesets, against the number of rules.
#
# It makes a scratch repository of the libraries and of a small program, proves both (which takes minutes where nothing of them
# is kept on this machine), and runs the program. The program loads rulesets of 100 to 2,000 rules, the most that there may be, from files in
# memory: rules that the file itself defines; references each to a rule of one other file; references each to the rule of another
# file; and that file's rules as a whole. A row has the shape, the rules that were loaded, milliseconds of processor time, the best of three, and
# microseconds for each rule. The last should stay the same. The tree in memory finds a file by going along its list, so where
# each rule has a file of its own that list is gone along for each rule, which a tree of real files does not do.
set -euo pipefail
. "$(dirname "$0")/scratch.sh"
libraries='anyhow pj_base pj_outside pj_rules'
scratch_repository rules_bench "$libraries" $(with_lower_crates pj_base pj_outside pj_rules)
cat > "$bench/src/main.rt" <<'PROGRAM'
// Rows of time.
#![tactic(auto)]

use anyhow::Result;
use pj_base::{Bytes, Names, NoMemory, Numbers, Text};
use pj_outside::{Files, MemTree};
use pj_rules::{RuleRefused, load};
use std::alloc::Global;
use std::time::CpuClock;

type Made<T> = std::result::Result<T, NoMemory>;

// How the rules of the ruleset `a.xml` are written.
#[derive(Clone, Copy, PartialEq)]
enum Shape {
    // Each stands in the file.
    Own,
    // Each is a reference to a rule of the file `b.xml`.
    OneFile,
    // Each is a reference to the rule of a file of its own.
    ManyFiles,
    // One reference to the file `b.xml` as a whole.
    Whole,
}

fn now(rt: &HostRuntime) -> Result<u64> {
    Ok((rt.process_cpu_time()?.as_nanos() % (1 << 62)) as u64)
}

fn push_head(text: &mut String) -> Made<()> {
    text.push_str("<ruleset name=\"measured\">\n")?;
    Ok(())
}

fn push_end(text: &mut String) -> Made<()> {
    text.push_str("</ruleset>\n")?;
    Ok(())
}

// The rule of a number.
fn push_rule(text: &mut String, number: u32) -> Made<()> {
    write!(text, "<rule name=\"Rule{number}\" language=\"java\" message=\"found\" class=\"net.sourceforge.pmd.lang.rule.xpath.XPathRule\">")?;
    text.push_str("<priority>3</priority><properties><property name=\"xpath\" value=\"//MethodDeclaration[@Name = 'get']\"/></properties></rule>\n")?;
    Ok(())
}

// A reference to the rule of a number in the file of a name.
fn push_reference(text: &mut String, file: &str, number: u32) -> Made<()> {
    write!(text, "<rule ref=\"{file}.xml/Rule{number}\"/>")?;
    text.push_str("\n")?;
    Ok(())
}

// The file of so many rules.
fn rules(alloc: Global, count: u32) -> Made<String> {
    let mut text = String::new(alloc);
    push_head(&mut text)?;
    for number in 0..count {
        push_rule(&mut text, number)?;
    }
    push_end(&mut text)?;
    Ok(text)
}

// The file of so many references to the rules of `b.xml`.
fn references_to_one(alloc: Global, count: u32) -> Made<String> {
    let mut text = String::new(alloc);
    push_head(&mut text)?;
    for number in 0..count {
        push_reference(&mut text, "b", number)?;
    }
    push_end(&mut text)?;
    Ok(text)
}

// The file of so many references, each to the rule of another file.
fn references_to_many(alloc: Global, count: u32) -> Made<String> {
    let mut text = String::new(alloc);
    push_head(&mut text)?;
    for number in 0..count {
        let file = format!(in alloc; "of{number}")?;
        push_reference(&mut text, file.as_str(), number)?;
    }
    push_end(&mut text)?;
    Ok(text)
}

// The file of one rule.
fn one_rule(alloc: Global, number: u32) -> Made<String> {
    let mut text = String::new(alloc);
    push_head(&mut text)?;
    push_rule(&mut text, number)?;
    push_end(&mut text)?;
    Ok(text)
}

fn put(alloc: Global, files: &mut Files, path: &str, text: &str) -> Made<()> {
    let bytes = Bytes::from_vec(Vec::from_slice(alloc, text.as_bytes())?);
    files.push((Text::from_str(alloc, path)?, bytes))
}

// The files of a shape, with so many rules.
fn files_of(alloc: Global, shape: Shape, count: u32) -> Made<Files> {
    let mut files = Files::new(alloc);
    match shape {
        Shape::Own => put(alloc, &mut files, "a.xml", rules(alloc, count)?.as_str())?,
        Shape::OneFile => {
            put(alloc, &mut files, "a.xml", references_to_one(alloc, count)?.as_str())?;
            put(alloc, &mut files, "b.xml", rules(alloc, count)?.as_str())?;
        }
        Shape::ManyFiles => {
            put(alloc, &mut files, "a.xml", references_to_many(alloc, count)?.as_str())?;
            for number in 0..count {
                let path = format!(in alloc; "of{number}.xml")?;
                put(alloc, &mut files, path.as_str(), one_rule(alloc, number)?.as_str())?;
            }
        }
        Shape::Whole => {
            put(alloc, &mut files, "a.xml", "<ruleset name=\"measured\"><rule ref=\"b.xml\"/></ruleset>")?;
            put(alloc, &mut files, "b.xml", rules(alloc, count)?.as_str())?;
        }
    }
    Ok(files)
}

// How many rules loading gives, or why it gives none.
fn loaded(alloc: Global, tree: &mut MemTree, paths: &Names, marker: &Text) -> std::result::Result<usize, RuleRefused> {
    let set = load(alloc, tree, paths, 5, marker)?;
    Ok(set.rules().len())
}

fn row(rt: &HostRuntime, name: &str, shape: Shape, count: u32) -> Result<()> {
    let alloc = rt.alloc();
    let mut tree = MemTree::new(alloc, files_of(alloc, shape, count)?, Numbers::new(alloc));
    let mut paths = Names::new(alloc);
    paths.push(Text::from_str(alloc, "a.xml")?)?;
    let marker = Text::from_str(alloc, "NOPMD")?;
    let mut best = u64::MAX;
    let mut found = 0usize;
    for _ in 0..3 {
        let start = now(rt)?;
        match loaded(alloc, &mut tree, &paths, &marker) {
            Ok(rules) => found = rules,
            Err(_) => found = 0,
        }
        best = best.min(now(rt)?.saturating_sub(start));
    }
    let milliseconds = best / 1_000_000;
    let each = best / 1_000 / u64::from(count.max(1));
    println!(rt; "{name}, {count} rules, loaded: {found}, {milliseconds} ms, {each} us/rule")?;
    Ok(())
}

fn main(rt: HostRuntime) -> Result<()> {
    for count in [100, 250, 500, 1_000, 2_000] {
        row(&rt, "own rules", Shape::Own, count)?;
        row(&rt, "references to one file", Shape::OneFile, count)?;
        row(&rt, "references to files", Shape::ManyFiles, count)?;
        row(&rt, "a whole file", Shape::Whole, count)?;
    }
    Ok(())
}
PROGRAM
cd "$bench"
rt run | grep ' us/rule'
