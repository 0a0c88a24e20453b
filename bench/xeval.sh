#!/usr/bin/env bash
# Time of the evaluation of expressions, against the number of nodes of a file.
#
# It makes a scratch repository of the libraries and of a small program, proves both (which takes minutes where nothing of them
# is kept on this machine), and runs the program. The program parses one class with 250, 500 and 1,000 times the same
# members (a file has at most 200,000 tokens, so no much larger one has a tree), and evaluates some expressions at the document.
# Then it builds trees of a quarter, a half and a whole million nodes, which no file has, and does the same there.
# It prints a row for each: the expression, the nodes of the tree, the items that it gives, and nanoseconds of processor time
# for each node of the tree. The last should stay the same, and grow no more than by the logarithm where nodes are sorted.
set -euo pipefail
. "$(dirname "$0")/scratch.sh"
. "$(dirname "$0")/trees.sh"
libraries='pj_attrs pj_base pj_names pj_parse pj_source pj_symbols pj_tree pj_xsteps pj_xeval pj_xexpressions pj_xfuncs pj_xparse pj_xvalue'
scratch_repository xeval_bench "$libraries" $(with_lower_crates $libraries)
trees_of_chains
for part in $(cd "$here/crates/rows_evaluation" && find src/replies.rt src/facts.rt specs proofs/facts -type f ! -name Lib.antt); do
    mkdir -p "$(dirname "$bench/$part")"
    sed 's/rows_evaluation/xeval_bench/g' "$here/crates/rows_evaluation/$part" > "$bench/$part"
done
cat "$here/crates/rows_evaluation/specs/Lib.antt" >> "$bench/specs/Lib.antt"
mkdir -p "$bench/proofs/items_of"
cat > "$bench/proofs/items_of/Answers.antt" <<'ANTT'
use Rattle.std.specs.Prelude.{length}
use Rattle.xeval_bench.proofs.items_of.Goals as goal

pub evaluate-given-requires-clause-variables : goal.evaluate-given-requires-clause-variables
evaluate-given-requires-clause-variables g c = c.requires.variables (length c.args.scene.now.tree.now.nodes)
ANTT
{
    cat <<'PROGRAM'
// Rows of time.
#![tactic(auto)]

ghost use Rattle.std.specs.Prelude.{◌≡◌, ℕ, Ok, length};
ghost use Rattle.pj_parse.specs.Parses.{Parses, file_parsed};
ghost use Rattle.pj_parse.specs.PoolText.{IsPoolOf};
ghost use Rattle.pj_xvalue.specs.OfTree.{VariablesOfTree};
ghost use Rattle.pj_xsteps.specs.Context.{given_of};

mod facts;
mod replies;
mod trees;

use crate::facts::Facts as Table;
use crate::replies::Replies;
use crate::trees::tree;
use pj_attrs::{Facts, tokens_are_in_order};
use pj_base::Names;
use pj_parse::{Parsed, parse};
use pj_source::Source;
use pj_symbols::Symbols;
use pj_tree::SyntaxTree;
use pj_xeval::{Focus, evaluate};
use pj_xexpressions::Expr;
use pj_xfuncs::Patterns;
use pj_xparse::parse as parse_expression;
use pj_xvalue::{Attributes, BoundVars, Item};
use std::alloc::{AllocError, Global};
use std::io;
use std::time::CpuClock;

PROGRAM
    text_of_members
    cat <<'PROGRAM'
static EXPRESSIONS: [&str; 9] = [
    "//MethodDeclaration",
    "//MethodDeclaration[@Name = 'method']",
    "//MethodCall[ancestor::ForStatement]",
    "//MethodDeclaration[.//ThrowStatement]",
    "count(//*)",
    "/CompilationUnit/ClassDeclaration/ClassBody/MethodDeclaration/Block",
    "for $m in //MethodDeclaration return if ($m/@Final) then () else $m",
    "//* intersect //Block",
    "//* except //Block",
];

// Those of the trees that are built.
static OF_CHAINS: [&str; 9] = [
    "//Block",
    "//VariableAccess[@Name = 'x']",
    "//Block[ancestor::ClassDeclaration]",
    "//ClassDeclaration[.//Block]",
    "count(//*)",
    "/CompilationUnit/ClassDeclaration/ClassDeclaration/Block/VariableAccess",
    "for $c in //ClassDeclaration return if ($c/Block) then $c else ()",
    "//* intersect //Block",
    "//* except //Block",
];

// What expressions are evaluated over.
#[derive(Drop)]
struct Scene<'t, A> {
    tree: &'t SyntaxTree<'t>,
    facts: &'t A,
    variables: BoundVars<'t>,
    patterns: Patterns,
}

// How many items the expression gives, or none where it gives a code.
fn items_of<A: Attributes>(alloc: Global, expr: &Expr, scene: &Scene<'_, A>) -> Option<usize>
    requires facts { A.nodes scene.now.facts.now ≡ length scene.now.tree.now.nodes }
    requires variables { (n : ℕ) → VariablesOfTree n (given_of scene.now.variables) }
{
    let mut calls = Replies { nodes: scene.tree.len() };
    let focus = Focus { item: Item::Document, position: 1, size: 1, variables: &scene.variables, patterns: &scene.patterns };
    let given = evaluate(alloc, expr, focus, scene.tree, scene.facts, &mut calls);
    match given {
        Ok(items) => Some(items.len()),
        Err(_) => None,
    }
}

// The row of an expression.
fn row_of_expression<A: Attributes>(rt: &HostRuntime, text: &str, tree: &SyntaxTree<'_>, facts: &A) -> io::Result<()>
    requires { A.nodes facts.now ≡ length tree.now.nodes }
{
    let names = Names::new(rt.alloc());
    let Ok(expr) = parse_expression(rt.alloc(), text, &names) else {
        return println!(rt; "{text}: no expression");
    };
    let variables = BoundVars::new(rt.alloc());
    let Ok(patterns) = Patterns::of(rt.alloc(), &expr, &variables) else {
        return println!(rt; "{text}: no patterns");
    };
    let scene = Scene { tree, facts, variables, patterns };
    let start = rt.process_cpu_time()?.as_nanos();
    let found = items_of(rt.alloc(), &expr, &scene);
    let end = rt.process_cpu_time()?.as_nanos();
    let nodes = tree.len();
    let each = end.saturating_sub(start) / u128::from(nodes.max(1));
    match found {
        Some(items) => println!(rt; "{text}: {nodes} nodes, {items} items, {each} ns a node"),
        None => println!(rt; "{text}: no items"),
    }
}

// The rows of a file.
fn rows_of_file(rt: &HostRuntime, source: &Source, parsed: &Parsed<'_>) -> io::Result<()>
    requires parses { Parses source.now.text (Ok (file_parsed parsed.now)) }
    requires text { parsed.now.tree.text ≡ source.now.text }
    requires pool { IsPoolOf parsed.now.tree parsed.now.pool }
{
    tokens_are_in_order(source.text(), parsed);
    let Ok(symbols) = Symbols::of(rt.alloc(), &parsed.tree) else {
        return println!(rt; "no memory");
    };
    let facts = Facts::new(source, parsed, &symbols);
    for text in EXPRESSIONS {
        row_of_expression(rt, text, &parsed.tree, &facts)?;
    }
    Ok(())
}

// The rows of a source.
fn rows_of_source(rt: &HostRuntime, source: &Source) -> io::Result<()> {
    match parse(rt.alloc(), source) {
        Ok(parsed) => rows_of_file(rt, source, &parsed),
        Err(_) => println!(rt; "no tree"),
    }
}

// The rows of so many members.
fn rows(rt: &HostRuntime, members: u32) -> io::Result<()> {
    let text = text_of(rt.alloc(), members)?;
    if text.len() > 100_000_000 {
        return Ok(());
    }
    match Source::read(rt.alloc(), text.as_str().as_bytes()) {
        Ok(source) => rows_of_source(rt, &source),
        Err(_) => println!(rt; "no text"),
    }
}

// The rows of so many chains of four nodes.
fn rows_of_chains(rt: &HostRuntime, chains: u32) -> io::Result<()> {
    let Ok(tree) = tree(rt.alloc(), chains, 4) else {
        return println!(rt; "no tree");
    };
    let table = Table { nodes: tree.len() };
    for text in OF_CHAINS {
        row_of_expression(rt, text, &tree, &table)?;
    }
    Ok(())
}

fn main(rt: HostRuntime) -> io::Result<()> {
    for members in [250u32, 500, 1000] {
        rows(&rt, members)?;
    }
    for chains in [62_500u32, 125_000, 250_000] {
        rows_of_chains(&rt, chains)?;
    }
    Ok(())
}
PROGRAM
} > "$bench/src/main.rt"
cd "$bench"
rt run
