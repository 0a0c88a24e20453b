#!/usr/bin/env bash
# Time of the eleven axes of nodes, against the size of the tree and the number of nodes that they give.
#
# It makes a scratch repository of the libraries and of a small program, proves both (which takes minutes where nothing of them
# is kept on this machine), and runs the program. The program builds trees of a quarter, a half and a whole million nodes, in
# two shapes: the root with chains of 2 nodes below it (wide), and with chains of 900 (deep). It goes over each axis from a node
# at which the axis is long, often enough to be given some millions of nodes, and prints a row: the shape, the number of nodes,
# the axis, how many nodes it gives, and nanoseconds of processor time for each of them. That should stay the same whatever the
# size of the tree, and on the sibling axes also whatever the depth of the siblings' subtrees.
set -euo pipefail
. "$(dirname "$0")/scratch.sh"
. "$(dirname "$0")/trees.sh"
libraries='pj_base pj_tree pj_xaxes pj_xexpressions'
scratch_repository axes_bench "$libraries" $(with_lower_crates $libraries)
trees_of_chains
cat > "$bench/src/main.rt" <<'PROGRAM'
// Rows of time.
#![tactic(auto)]

ghost use Rattle.std.specs.Prelude.{◌<◌, length};

mod trees;

use crate::trees::tree;
use pj_tree::{Node, SyntaxTree};
use pj_xaxes::axis;
use pj_xexpressions::Axis;
use std::io;
use std::time::CpuClock;

// How many nodes the axis gives, over so many turns.
fn given(tree: &SyntaxTree<'_>, along: Axis, n: Node, turns: u64) -> u64
    requires { n.0 < length tree.now.nodes }
{
    let mut count: u64 = 0;
    for _ in 0..turns {
        for _ in axis(&*tree, along, n) {
            count = count.saturating_add(1);
        }
    }
    count
}

// One axis from one node, as often as gives some millions of nodes.
fn row(rt: &HostRuntime, name: &str, tree: &SyntaxTree<'_>, along: Axis, n: u32) -> io::Result<()> {
    if n >= tree.len() {
        return Ok(());
    }
    let nodes = tree.len();
    let once = given(tree, along, Node(n), 1);
    let turns = 4_000_000 / once.max(1);
    let start = rt.process_cpu_time()?.as_nanos();
    let count = given(tree, along, Node(n), turns);
    let end = rt.process_cpu_time()?.as_nanos();
    let each = end.saturating_sub(start) / u128::from(count.max(turns).max(1));
    println!(rt; "{name}: {nodes} nodes, {along:?}: {once} given, {each} ns each")
}

fn series(rt: &HostRuntime, name: &str, length: u32) -> io::Result<()> {
    for nodes in [250_000u32, 500_000, 1_000_000] {
        let chains = nodes / length.max(1);
        let Ok(tree) = tree(rt.alloc(), chains, length) else {
            return Ok(());
        };
        let last = tree.len() - 1;
        let last_child = tree.len().saturating_sub(length);
        for (along, n) in [
            (Axis::Child, 0),
            (Axis::Descendant, 0),
            (Axis::SelfNode, last),
            (Axis::DescendantOrSelf, 0),
            (Axis::FollowingSibling, 1),
            (Axis::Following, 1),
            (Axis::Parent, last),
            (Axis::Ancestor, last),
            (Axis::PrecedingSibling, last_child),
            (Axis::Preceding, last),
            (Axis::AncestorOrSelf, last),
        ] {
            row(rt, name, &tree, along, n)?;
        }
    }
    Ok(())
}

fn main(rt: HostRuntime) -> io::Result<()> {
    series(&rt, "wide", 2)?;
    series(&rt, "deep", 900)
}
PROGRAM
cd "$bench"
rt run
