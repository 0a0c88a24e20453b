# Read in by the scripts of this folder that measure trees of many nodes, which no file has: behind scratch.sh.

# trees_of_chains
# Writes into the program's folder, $bench, the module `trees`, with its proof: `tree(alloc, chains, length)` is a root with chains of
# nodes below it, each node inside the one before: classes, with a block last but one and a variable last.
trees_of_chains() {
    local there=$bench part program
    program=$(basename "$bench")
mkdir -p "$there/proofs/trees/+add_chain" "$there/proofs/trees/tree"
cat > "$there/specs/Lib.antt" <<'ANTT'
pub mod Shapes
ANTT
cat > "$there/specs/Shapes.antt" <<'ANTT'
-- The trees that are measured.
use Rattle.std.specs.Prelude.{ℕ, zero, suc, ◌==◌, fold, if◌then◌else◌}
use Rattle.pj_tree.specs.declared.kind.Kind.{Kind}
use Rattle.pj_tree.specs.declared.kind.Kind.TheVariants.{Block, ClassDeclaration, VariableAccess}
use Rattle.pj_tree.specs.Nested.{Parts, NoMore, Token, Child, calls_of}
use Rattle.pj_tree.specs.Building.{Building, after_call}

-- the kind of a node of a chain with so many nodes from it on
abbrev pub kind_at : ℕ → Kind
kind_at n = if n == 1 then VariableAccess else if n == 2 then Block else ClassDeclaration

-- a node with what is inside it, and what stands behind it
abbrev pub node : Kind → Parts → Parts → Parts
node kind inside rest = Child kind 0 inside 0 rest

-- parts, and more parts behind them
abbrev pub behind : Parts → Parts → Parts
behind NoMore more = more
behind (Token token rest) more = Token token (behind rest more)
behind (Child kind from inside to rest) more = Child kind from inside to (behind rest more)

-- so many nodes, each inside the one before
unfoldable pub chain : ℕ → Parts
chain zero = NoMore
chain (suc n) = node (kind_at (suc n)) (chain n) NoMore

-- so many chains of that length, one behind the other
unfoldable pub chains : ℕ → ℕ → Parts
chains length zero = NoMore
chains length (suc count) = behind (chains length count) (chain length)

-- what the calls that write the parts make of a builder
abbrev pub written : Parts → Building → Building
written parts b = fold after_call b (calls_of parts)
ANTT
cat > "$there/proofs/Lib.antt" <<'ANTT'
pub mod Chains
ANTT
cat > "$there/proofs/Chains.antt" <<'ANTT'
-- Trees of chains.
use Rattle.std.proofs.Common.{◌≡◌, ℕ, zero, suc, ◌+◌, ◌-◌, ◌<◌, List, [], ◌∷◌, ◌++◌, IsSome, length-append, append_assoc, refl, sym, ◌∙◌, ap, arith}
use Rattle.pj_tree.specs.declared.kind.Kind.{Kind}
use Rattle.pj_tree.specs.declared.kind.Kind.TheVariants.{CompilationUnit}
use Rattle.pj_tree.specs.Tree.{IsSpanOf}
use Rattle.pj_tree.specs.Nested.{Parts, NoMore, Token, Child, calls_of, AreSpansOf}
use Rattle.pj_tree.specs.Building.{Building, Call, Open, Close, built, started, opened, closed}
use Rattle.pj_tree.proofs.NestedLaws.{after_calls, parts-written, IsOpenIn}
use Rattle.PROGRAM.specs.Shapes.{node, behind, chain, chains, kind_at, written}

-- after the calls of parts the same node is open
current_kept : (b : Building) (parts : Parts) → IsOpenIn b.current b.nodes → (written parts b).current ≡ b.current
current_kept b parts is = ap (λ (x : Building). x.current) (parts-written b.text b.nodes b.current parts is)

pub still_open : (kind : Kind) (b inner after : Building) (parts : Parts) → inner ≡ opened b kind 0 → after ≡ written parts inner → IsSome after.current
still_open kind b inner after parts is was =
    let kept = current_kept (opened b kind 0) parts (omega (arith, length-append b.nodes)) in
    rw (was, is, kept) refl

node_written : (kind : Kind) (b : Building) (inside : Parts) → written (node kind inside NoMore) b ≡ closed (written inside (opened b kind 0)) 0
node_written kind b inside = after_calls (opened b kind 0) (calls_of inside) (Close 0 ∷ [])

pub chain_written : (b : Building) (count : ℕ) → 0 < count → written (chain count) b ≡ closed (written (chain (count - 1)) (opened b (kind_at count) 0)) 0
unfolding chain
chain_written b zero some = absurd (omega arith)
chain_written b (suc n) some = let e : suc n - 1 ≡ n = omega arith in rw e (node_written (kind_at (suc n)) b (chain n))

pub nothing_written : (b : Building) (count : ℕ) → count ≡ 0 → b ≡ written (chain count) b
unfolding chain
nothing_written b count none = rw none refl

behind_calls : (parts more : Parts) → calls_of (behind parts more) ≡ calls_of parts ++ calls_of more
behind_calls NoMore more = refl
behind_calls (Token token rest) more = rw (behind_calls rest more) refl
behind_calls (Child kind from inside to rest) more =
    ap (λ (cs : List Call). Open kind from ∷ (calls_of inside ++ Close to ∷ cs)) (behind_calls rest more)
    ∙ ap (λ (cs : List Call). Open kind from ∷ cs) (sym (append_assoc (calls_of inside) (Close to ∷ calls_of rest) (calls_of more)))

pub no_chains : (b : Building) (n : ℕ) → b ≡ written (chains n 0) b
unfolding chains
no_chains b n = refl

pub next_chain : (b : Building) (n count : ℕ) → written (chain n) (written (chains n count) b) ≡ written (chains n (count + 1)) b
unfolding chains
next_chain b n count =
    let e : count + 1 ≡ suc count = omega arith in
    rw (e, behind_calls (chains n count) (chain n)) (sym (after_calls b (calls_of (chains n count)) (calls_of (chain n))))

pub no_text : IsSpanOf [] (record { from = 0; to = 0 })
no_text = record { ordered = omega arith; begins = (omega arith, λ a b. absurd (omega arith)); ends = (omega arith, λ a b. absurd (omega arith)) }

chain_spans : (count : ℕ) → AreSpansOf [] (chain count)
unfolding chain
chain_spans zero = tt
chain_spans (suc n) = (no_text, chain_spans n, tt)

behind_spans : (parts more : Parts) → AreSpansOf [] parts → AreSpansOf [] more → AreSpansOf [] (behind parts more)
behind_spans NoMore more here there = there
behind_spans (Token token rest) more here there = (here.0, behind_spans rest more here.1 there)
behind_spans (Child kind from inside to rest) more here there = (here.0, here.1, behind_spans rest more here.2 there)

pub spans : (n count : ℕ) → AreSpansOf [] (chains n count)
unfolding chains
spans n zero = tt
spans n (suc count) = behind_spans (chains n count) (chain n) (spans n count) (chain_spans n)

pub all_written : (parts : Parts) → closed (written parts (opened (started []) CompilationUnit 0)) 0 ≡ built [] (calls_of (node CompilationUnit parts NoMore))
all_written parts = sym (node_written CompilationUnit (started []) parts)
ANTT
cat > "$there/proofs/trees/+add_chain/Invariants.antt" <<'ANTT'
use Rattle.PROGRAM.proofs.trees.+add_chain.Given as goal

abbrev pub decreases-add_chain : goal.decreases-add_chain
decreases-add_chain l = l.count
ANTT
cat > "$there/proofs/trees/+add_chain/Answers.antt" <<'ANTT'
use Rattle.std.proofs.Common.{ap, ◌∙◌, ◌-◌, sym, arith}
use Rattle.pj_tree.specs.declared.kind.Kind.{Kind}
use Rattle.pj_tree.specs.Building.{Building, closed, opened}
use Rattle.PROGRAM.specs.Shapes.{chain, written}
use Rattle.PROGRAM.proofs.Chains.{still_open, chain_written, nothing_written}
use Rattle.PROGRAM.proofs.trees.+add_chain.Goals as goal

pub close-requires : goal.close-requires
close-requires t c = record { «open» = still_open c.kind_at.result c.args.builder.now c.open.new.self c.add_chain.new.builder (chain (c.args.count - 1)) c.in_ok-open.ensures.ok c.in_ok-add_chain.ensures }

pub returns-in_ok-add_chain : goal.returns-in_ok-add_chain
returns-in_ok-add_chain t c =
    c.close.ensures.value
    ∙ ap (λ (b : Building). closed b 0) (c.in_ok-add_chain.ensures
        ∙ ap (written (chain (c.args.count - 1))) (c.in_ok-open.ensures.ok ∙ ap (λ (kind : Kind). opened c.args.builder.now kind 0) c.kind_at.ensures))
    ∙ sym (chain_written c.args.builder.now c.args.count (omega arith))

pub returns-else-count-gt0 : goal.returns-else-count-gt0
returns-else-count-gt0 t c = nothing_written c.args.builder.now c.args.count (omega arith)
ANTT
cat > "$there/proofs/trees/tree/Invariants.antt" <<'ANTT'
use Rattle.std.proofs.Common.{◌≡◌, []}
use Rattle.pj_tree.specs.declared.kind.Kind.TheVariants.{CompilationUnit}
use Rattle.pj_tree.specs.Building.{started, opened}
use Rattle.PROGRAM.specs.Shapes.{chains, written}
use Rattle.PROGRAM.proofs.trees.tree.Given as goal

abbrev pub invariant-loop : goal.invariant-loop
invariant-loop l = l.builder ≡ written (chains l.fn.length l.counter) (opened (started []) CompilationUnit 0)
ANTT
cat > "$there/proofs/trees/tree/Answers.antt" <<'ANTT'
use Rattle.std.proofs.Common.{[], ap, ◌∙◌, sym, refl, subst}
use Rattle.pj_tree.specs.declared.kind.Kind.TheVariants.{CompilationUnit}
use Rattle.pj_tree.specs.Building.{Building, IsWhole, started, opened, closed}
use Rattle.PROGRAM.specs.Shapes.{chain, chains, written}
use Rattle.PROGRAM.proofs.Chains.{still_open, no_chains, next_chain, spans, no_text, all_written}
use Rattle.PROGRAM.proofs.trees.tree.Goals as goal

pub loop-init : goal.loop-init
loop-init c =
    c.in_ok-open.ensures.ok ∙ ap (λ (b : Building). opened b CompilationUnit 0) c.new-builder.ensures.value ∙ no_chains (opened (started []) CompilationUnit 0) c.args.length

pub loop-preserved : goal.loop-preserved
loop-preserved c =
    c.in_ok-add_chain.ensures ∙ ap (written (chain c.args.length)) c.loop.invariant ∙ next_chain (opened (started []) CompilationUnit 0) c.args.length c.loop.counter

pub close-requires : goal.close-requires
close-requires c =
    record { «open» = still_open CompilationUnit (started []) (opened (started []) CompilationUnit 0) c.loop.builder (chains c.args.length c.loop.counter) refl c.loop.invariant }

pub finish-requires : goal.finish-requires
finish-requires c =
    let parts = chains c.args.length c.loop.counter in
    let is = c.close.ensures.value ∙ ap (λ (b : Building). closed b 0) c.loop.invariant ∙ all_written parts in
    record { whole = subst IsWhole (sym is) (c.new-builder.ensures.calls.whole CompilationUnit 0 0 parts (no_text, spans c.args.length c.loop.counter, tt)) }
ANTT
cat > "$there/src/trees.rt" <<'PART'
// Trees of chains.
ghost use Rattle.std.specs.Prelude.{◌≡◌, length, OnOk};
ghost use Rattle.pj_tree.specs.Building.{IsWhole};
ghost use Rattle.PROGRAM.specs.Shapes.{chain, kind_at, written};

use pj_base::NoMemory;
use pj_tree::{Builder, Kind, ShapeFault, SyntaxTree};
use std::alloc::Global;

// The kind of a node of a chain with so many nodes from it on.
fn kind_at(count: u32) -> Kind
    ensures { result ≡ kind_at count }
{
    if count == 1 {
        return Kind::VariableAccess;
    }
    if count == 2 {
        return Kind::Block;
    }
    Kind::ClassDeclaration
}

// So many nodes, each inside the one before.
fn add_chain(builder: &mut Builder<'_>, count: u32) -> Result<(), NoMemory>
    ensures { OnOk result (builder.new ≡ written (chain count) builder.old) }
{
    if count > 0 {
        builder.open(kind_at(count), 0)?;
        add_chain(builder, count - 1)?;
        builder.close(0);
    }
    Ok(())
}

// The root, and below it so many chains of so many nodes.
pub fn tree(alloc: Global, chains: u32, length: u32) -> Result<SyntaxTree<'static>, ShapeFault> {
    let mut builder = Builder::new(alloc, "");
    builder.open(Kind::CompilationUnit, 0)?;
    for _ in 0..chains {
        add_chain(&mut builder, length)?;
    }
    builder.close(0);
    builder.finish()
}
PART
    for part in specs/Shapes.antt src/trees.rt $(cd "$there" && find proofs -name '*.antt'); do
        sed -i "s/PROGRAM/$program/g" "$there/$part"
    done
}
