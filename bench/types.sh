#!/usr/bin/env bash
# Types of the expressions of real Java sources, over the classes of this machine's JDK, and how their time grows.
#
#   bench/types.sh [--unproved] [--every N] FOLDER [FILE]      as the module java.base of Debian's package openjdk-17-source, unpacked
#
# It extracts the JDK's image, makes a scratch repository of the libraries and of a small program, proves both (which takes an hour
# where nothing of them is kept on this machine), and runs the program. With --unproved it builds the program without proofs, in some minutes, as
# `pmd` builds its own at first. Every class file of java.base is an answer; then each expression, and the name of each variable that is declared, of
# each file of the folder that ends in .java, module-info.java left out, is typed by `type_of`, with one table of types for each file. With --every N it
# takes the first of each N files.
#
# It prints how many files have a tree, nodes, types, and how many of them are not known; milliseconds of processor time for parsing, for
# the declarations, and for types; classes asked for; the peak of resident memory, before and after the files; the ten files that take most; and
# the types that are not known by the cause that the first of them has, which those have that are made of it. Then come files that it makes: many calls
# of one overloaded method of the file and of java.lang.StringBuilder, long chains of variables that are declared by `var`, and long expressions. For
# each it prints the milliseconds of parsing, of the type of the last variable by itself, and of all types.
#
# FILE gets a line for each node and for each call; bench/types_javac.sh compares them with what javac says. It wants jimage, of the JDK whose
# sources FOLDER has, and python3.
set -euo pipefail
unproved='' every=1
while :; do
    case ${1-} in
        --unproved) unproved=yes; shift ;;
        --every) every=$2; shift 2 ;;
        *) break ;;
    esac
done
folder=$(cd "$1" && pwd)
all_nodes=$(readlink -f "${2:-/dev/null}")
. "$(dirname "$0")/scratch.sh"
libraries='pj_base pj_calls pj_classfile pj_declared pj_exprtypes pj_file_oracle pj_grammar pj_leaf_types pj_names pj_outer_names pj_overload pj_parse pj_peg pj_peg_grammar pj_scopes pj_symbols pj_tree'
# shellcheck disable=SC2046,SC2086 # names of crates have no spaces
scratch_repository types_bench "anyhow $libraries" $(with_lower_crates $libraries)
home=$(dirname "$(dirname "$(readlink -f "$(command -v jimage)")")")
jimage extract --dir "$scratch/jdk" --include regex:/java.base/.*class "$home/lib/modules"
find "$scratch/jdk" -name '*.class' ! -name module-info.class | LC_ALL=C sort > "$scratch/classes"
find "$folder" -name '*.java' ! -name module-info.java | LC_ALL=C sort | awk -v every="$every" 'NR % every == 1 || every == 1' > "$scratch/sources"
cat > "$bench/src/main.rt" <<'PROGRAM'
// The types of all expressions and variables of many files, over the classes of a JDK.
#![tactic(auto)]

ghost use Rattle.std.specs.Prelude.{◌≡◌, ◌<◌, ◌≤◌, [], false, length};
ghost use Rattle.std.specs.FinSet as set;
ghost use Rattle.pj_names.specs.AnswerList.{list_world};
ghost use Rattle.pj_grammar.specs.Java17.{java_17_forms};
ghost use Rattle.pj_peg_grammar.specs.Form.{forms_of};

use pj_base::{Copied, NoMemory, Text};
use pj_calls::{arguments_of, candidates_of, functions_of, receiver_of};
use pj_classfile::{ClassRefused, parse};
use pj_declared::Declarations;
use pj_exprtypes::{Typed, chosen, type_of};
use pj_file_oracle::{FileOracle, Held};
use pj_grammar::java_17;
use pj_leaf_types::{initializer_of, is_in_own_initializer, is_var_name, statement_of};
use pj_names::{Answer, AskFault, ClassName, Oracle, Prim, Ty, TyList, Types};
use pj_outer_names::File;
use pj_overload::{Choice, choose};
use pj_parse::{parse_file_by, read_file};
use pj_peg::WellFormed;
use pj_scopes::{Variable, variable_name};
use pj_symbols::{Symbols, declaration_of};
use pj_tree::{Kind, Node, SyntaxTree, first_child, first_word, last_word, second_child};
use std::alloc::Global;
use std::collections::BTreeMap;
use std::sync::Arc;
use std::time::CpuClock;
use std::{env, fs};

// The classes of the JDK, and how often one was asked for. It does not tell its world.
#[derive(Drop)]
struct Jdk {
    alloc: Global,
    classes: BTreeMap<ClassName, Arc<Answer>>,
    asked: u64,
}

impl Oracle for Jdk {
    ghost use Rattle.std.specs.Prelude.{[], false};
    ghost use Rattle.std.specs.FinSet as set;
    ghost use Rattle.pj_names.specs.AnswerList.{list_world};

    ghost Kept = { Unit {0} };

    ghost tells = { λ jdk. record { is_told = false; world = λ depth. list_world []; kept = tt; asked = set.empty; faults = 0 } };

    fn ask(&mut self, name: &ClassName) -> Result<Arc<Answer>, AskFault> {
        self.asked = self.asked.saturating_add(1);
        match self.classes.get(name) {
            Some(answer) => Ok(answer.clone()?),
            None => Ok(Arc::new(self.alloc, Answer::Absent)?),
        }
    }
}

fn now(rt: &HostRuntime) -> anyhow::Result<u64> {
    Ok((rt.process_cpu_time()?.as_micros() % (1 << 60)) as u64)
}

// Puts the class of a file among the classes.
fn put_class(rt: &HostRuntime, jdk: &mut Jdk, path: &str) -> anyhow::Result<()> {
    let bytes = fs::read(rt, path)?;
    if bytes.len() > 4_000_000_000 {
        return Ok(());
    }
    match parse(rt.alloc(), &bytes) {
        Ok(class) => {
            let name = class.name.copied()?;
            let answer = Arc::new(rt.alloc(), Answer::Found(class))?;
            let _ = jdk.classes.insert(name, answer)?;
        }
        Err(ClassRefused::Fault(fault)) => println!(rt;
            "sum: {path}: fault {} at {}",
            fault.kind, fault.offset
        )?,
        Err(ClassRefused::Memory) => println!(rt; "sum: {path}: out of memory")?,
    }
    Ok(())
}

// The classes of a list of class files.
fn read_classes(rt: &HostRuntime, list: &str) -> anyhow::Result<Jdk> {
    let mut jdk = Jdk {
        alloc: rt.alloc(),
        classes: BTreeMap::new(rt.alloc()),
        asked: 0,
    };
    let paths = fs::read_to_string(rt, list)?;
    for path in paths.as_str().lines() {
        put_class(rt, &mut jdk, path)?;
    }
    Ok(jdk)
}

// Why the type of a node is not known.
#[derive(Clone, Copy)]
enum Cause {
    // As that of another node.
    Other(Node),
    // For a reason of its own, in a word.
    Own(&'static str),
}

// A node, its type, and where that is not known, why.
#[derive(Drop)]
struct TypedNode {
    node: Node,
    found: Result<Ty, AskFault>,
}

// Whether a node is an expression, or the name of a variable that is declared.
fn is_typed(kind: Kind) -> bool {
    match kind {
        Kind::NumericLiteral
        | Kind::StringLiteral
        | Kind::CharLiteral
        | Kind::BooleanLiteral
        | Kind::NullLiteral
        | Kind::ClassLiteral
        | Kind::ThisExpression
        | Kind::SuperExpression
        | Kind::ArrayAllocation
        | Kind::VariableAccess
        | Kind::AssignmentExpression
        | Kind::ConditionalExpression
        | Kind::InfixExpression
        | Kind::TypeExpression
        | Kind::UnaryExpression
        | Kind::CastExpression
        | Kind::MethodCall
        | Kind::FieldAccess
        | Kind::ConstructorCall
        | Kind::ArrayAccess
        | Kind::MethodReference
        | Kind::LambdaExpression
        | Kind::SwitchExpression
        | Kind::VariableId => true,
        _ => false,
    }
}

// The types of the nodes of a file.
fn type_all(alloc: Global, file: &File<'_>, jdk: &mut Jdk) -> anyhow::Result<Vec<TypedNode>> {
    let mut types = Typed::new(alloc);
    let mut held = Held::new(alloc);
    let mut oracle = FileOracle::new(alloc, file, jdk, &mut held);
    let mut nodes = Vec::new(alloc);
    for n in 0..file.tree().len() {
        let node = Node(n);
        if n < oracle.tree().len() && is_typed(oracle.tree().kind(node)) {
            let found = type_of(&mut oracle, &mut types, node);
            nodes.push(TypedNode { node, found })?;
        }
    }
    Ok(nodes)
}

// The type of the last variable that a file declares.
fn type_last(alloc: Global, file: &File<'_>, jdk: &mut Jdk) -> Result<Ty, AskFault> {
    let mut types = Typed::new(alloc);
    let mut held = Held::new(alloc);
    let mut oracle = FileOracle::new(alloc, file, jdk, &mut held);
    let mut last = Node(0);
    for n in 0..file.tree().len() {
        if file.tree().kind(Node(n)) == Kind::VariableId {
            last = Node(n);
        }
    }
    if last.0 >= oracle.tree().len() {
        return Ok(Ty::Unknown);
    }
    type_of(&mut oracle, &mut types, last)
}

// What is needed to say why the type of a node is not known.
#[derive(Drop)]
struct Asked<'a, 'f> {
    alloc: Global,
    file: &'a File<'f>,
    oracle: FileOracle<'a, 'f, Jdk>,
    types: Typed,
}

// The type of a node.
fn type_at(asked: &mut Asked<'_, '_>, n: Node) -> Result<Ty, AskFault>
    ensures { asked.new.file.now ≡ asked.old.file.now }
{
    if n.0 >= asked.oracle.tree().len() {
        return Ok(Ty::Unknown);
    }
    type_of(&mut asked.oracle, &mut asked.types, n)
}

// The first of some nodes whose type is not known.
fn first_unknown(asked: &mut Asked<'_, '_>, nodes: &[Node]) -> Result<Option<Node>, AskFault> {
    for n in nodes {
        if let Ty::Unknown = type_at(asked, *n)? {
            return Ok(Some(*n));
        }
    }
    Ok(None)
}

// The first of some nodes whose type is not known, or a reason of its own.
fn first_or(
    asked: &mut Asked<'_, '_>,
    nodes: &[Node],
    word: &'static str,
) -> Result<Cause, AskFault> {
    match first_unknown(asked, nodes)? {
        Some(n) => Ok(Cause::Other(n)),
        None => Ok(Cause::Own(word)),
    }
}

// The children of a node from one on, without types that are written.
fn children_from(
    alloc: Global,
    tree: &SyntaxTree<'_>,
    n: Node,
    first: u32,
) -> Result<Vec<Node>, NoMemory>
    requires inside { n.0 < length tree.now.nodes }
{
    let mut nodes = Vec::new(alloc);
    let mut place = 0u32;
    for child in tree.children(n) {
        if place >= first && child.0 < tree.len() && is_typed(tree.kind(child)) {
            nodes.push(child)?;
        }
        place = place.saturating_add(1);
    }
    Ok(nodes)
}

// The types of nodes, one after the other.
fn types_at(asked: &mut Asked<'_, '_>, nodes: &[Node]) -> Result<TyList, AskFault> {
    let mut types = TyList::new(asked.alloc);
    for n in nodes {
        let ty = type_at(asked, *n)?;
        types.push(ty)?;
    }
    Ok(types)
}

// The type of what stands before the dot of a call, where something does.
fn receiver_type(asked: &mut Asked<'_, '_>, receiver: Option<Node>) -> Result<Option<Ty>, AskFault> {
    match receiver {
        Some(receiver) => Ok(Some(type_at(asked, receiver)?)),
        None => Ok(None),
    }
}

// Why no method is chosen: there is none of the name, none is applicable, or none of several is the most specific.
fn why_not_chosen(asked: &mut Asked<'_, '_>, n: Node) -> Result<Cause, AskFault>
    requires inside { n.0 < length asked.old.file.now.nodes }
{
    let (alloc, file) = (asked.alloc, asked.file);
    let nodes = arguments_of(alloc, file.tree(), n)?;
    let functions = functions_of(alloc, file.tree(), &nodes)?;
    let receiver = receiver_type(asked, receiver_of(file.tree(), n))?;
    let arguments = types_at(asked, nodes.as_slice())?;
    let found = candidates_of(alloc, file, &mut asked.oracle, n, receiver)?;
    let Some(candidates) = found else {
        return Ok(Cause::Own("no-method"));
    };
    let choice = choose(
        alloc,
        &mut asked.oracle,
        &candidates.methods,
        &arguments,
        &functions,
    )?;
    match choice {
        Choice::None => Ok(Cause::Own("not-applicable")),
        Choice::Tie => Ok(Cause::Own("tie")),
        Choice::One(_) => first_or(asked, nodes.as_slice(), "result"),
    }
}

// Why the type of a method call is not known.
fn why_call(asked: &mut Asked<'_, '_>, n: Node) -> Result<Cause, AskFault>
    requires inside { n.0 < length asked.old.file.now.nodes }
{
    let file = asked.file;
    if let Some(receiver) = receiver_of(file.tree(), n) {
        if let Ty::Unknown = type_at(asked, receiver)? {
            return Ok(Cause::Other(receiver));
        }
    }
    why_not_chosen(asked, n)
}

// Why the type of the name of a variable is not known.
fn why_name(asked: &mut Asked<'_, '_>, n: Node) -> Result<Cause, AskFault>
    requires inside { n.0 < length asked.old.file.now.nodes }
{
    let file = asked.file;
    let name = first_word(file.tree(), n);
    match variable_name(asked.alloc, file, &mut asked.oracle, n, name)? {
        None => Ok(Cause::Own("no-variable")),
        Some(Variable::Inherited(_)) => Ok(Cause::Own("inherited-field")),
        Some(Variable::Declared(id)) => {
            if is_in_own_initializer(file.tree(), n, id) {
                Ok(Cause::Own("own-initializer"))
            } else {
                Ok(Cause::Other(id))
            }
        }
    }
}

// What the type of a variable is made of that is declared by `var`.
fn source_of(tree: &SyntaxTree<'_>, id: Node) -> Option<Node>
    requires inside { id.0 < length tree.now.nodes }
{
    match statement_of(tree, id) {
        Some(statement) => second_child(tree, statement),
        None => initializer_of(tree, id),
    }
}

// Why the type of a variable that is declared is not known.
fn why_variable(asked: &mut Asked<'_, '_>, id: Node) -> Result<Cause, AskFault>
    requires inside { id.0 < length asked.old.file.now.nodes }
{
    let file = asked.file;
    let tree = file.tree();
    if is_var_name(tree, id) {
        return match source_of(tree, id) {
            Some(n) => first_or(asked, &[n], "no-iterable"),
            None => Ok(Cause::Own("var-without-source")),
        };
    }
    match declaration_of(tree, id) {
        Some(declaration) => match tree.kind(declaration) {
            Kind::LambdaParameter => Ok(Cause::Own("lambda-parameter")),
            Kind::CatchParameter => Ok(Cause::Own("union")),
            _ => Ok(Cause::Own("written-type")),
        },
        None => Ok(Cause::Own("no-declaration")),
    }
}

// Why the type of a node is not known.
fn why(asked: &mut Asked<'_, '_>, n: Node) -> Result<Cause, AskFault>
    requires inside { n.0 < length asked.old.file.now.nodes }
{
    let file = asked.file;
    let tree = file.tree();
    match tree.kind(n) {
        Kind::MethodCall => why_call(asked, n),
        Kind::VariableAccess => why_name(asked, n),
        Kind::VariableId => why_variable(asked, n),
        Kind::ConditionalExpression => {
            let nodes = children_from(asked.alloc, tree, n, 1)?;
            first_or(asked, nodes.as_slice(), "branches")
        }
        Kind::InfixExpression | Kind::UnaryExpression => {
            let nodes = children_from(asked.alloc, tree, n, 0)?;
            first_or(asked, nodes.as_slice(), "operator")
        }
        Kind::AssignmentExpression => {
            let nodes = children_from(asked.alloc, tree, n, 0)?;
            first_or(asked, nodes.as_slice(), "assignment")
        }
        Kind::FieldAccess => {
            let nodes = children_from(asked.alloc, tree, n, 0)?;
            first_or(asked, nodes.as_slice(), "no-field")
        }
        Kind::ArrayAccess => {
            let nodes = children_from(asked.alloc, tree, n, 0)?;
            first_or(asked, nodes.as_slice(), "no-array")
        }
        Kind::LambdaExpression => Ok(Cause::Own("lambda")),
        Kind::MethodReference => Ok(Cause::Own("method-reference")),
        Kind::SwitchExpression => Ok(Cause::Own("switch")),
        Kind::ThisExpression => Ok(Cause::Own("this")),
        Kind::SuperExpression => Ok(Cause::Own("super")),
        _ => Ok(Cause::Own("written-type")),
    }
}

// The word of a primitive type.
fn primitive_word(prim: Prim) -> &'static str {
    match prim {
        Prim::Boolean => "boolean",
        Prim::Byte => "byte",
        Prim::Short => "short",
        Prim::Int => "int",
        Prim::Long => "long",
        Prim::Char => "char",
        Prim::Float => "float",
        Prim::Double => "double",
    }
}

// Puts a type at the end, whole or erased.
#[cycle(shown)]
fn put_type(out: &mut Text, ty: &Ty, is_erased: bool) -> Result<(), NoMemory> {
    match ty {
        Ty::Prim(prim) => out.push_str(primitive_word(*prim)),
        Ty::Void => out.push_str("void"),
        Ty::Null => out.push_str("null"),
        Ty::Unknown => out.push_str("?"),
        Ty::Class(name, arguments) => {
            out.push_str(name.as_str())?;
            if is_erased {
                return Ok(());
            }
            put_arguments(out, "<", arguments)
        }
        Ty::Array(member) => {
            put_type(out, member, is_erased)?;
            out.push_str("[]")
        }
        Ty::Var(name, bound) => {
            if is_erased {
                return put_type(out, bound, is_erased);
            }
            out.push_str(name.as_str())
        }
    }
}

// Puts type arguments at the end, with a sign before each: behind the last one of a list a `>`.
#[cycle(shown)]
fn put_arguments(out: &mut Text, sign: &str, arguments: &Types) -> Result<(), NoMemory> {
    match arguments {
        Types::End => match sign {
            "<" => Ok(()),
            _ => out.push_str(">"),
        },
        Types::More(first, rest) => {
            out.push_str(sign)?;
            put_type(out, first, false)?;
            put_arguments(out, ",", rest)
        }
    }
}

// The name that a node has: of a method, a field or a variable.
fn name_of<'t>(tree: &'t SyntaxTree<'_>, n: Node) -> &'t str
    requires inside { n.0 < length tree.now.nodes }
{
    match tree.kind(n) {
        Kind::MethodCall | Kind::FieldAccess => last_word(tree, n),
        Kind::VariableAccess | Kind::VariableId => first_word(tree, n),
        _ => "-",
    }
}

// The number of the node before the dot of a call or of a field.
fn receiver_text(alloc: Global, tree: &SyntaxTree<'_>, n: Node) -> Result<Text, NoMemory>
    requires inside { n.0 < length tree.now.nodes }
{
    let receiver = match tree.kind(n) {
        Kind::MethodCall => receiver_of(tree, n),
        Kind::FieldAccess => first_child(tree, n),
        _ => None,
    };
    match receiver {
        Some(receiver) => cause_text(alloc, Cause::Other(receiver)),
        None => Text::from_str(alloc, "-"),
    }
}

// What is said of the cause.
fn cause_text(alloc: Global, cause: Cause) -> Result<Text, NoMemory> {
    match cause {
        Cause::Other(n) => {
            let digits = n.0.to_string(alloc)?;
            Text::from_str(alloc, digits.as_str())
        }
        Cause::Own(word) => Text::from_str(alloc, word),
    }
}

// The erased and the whole type, and where it is not known why, with the type of the receiver.
fn said(asked: &mut Asked<'_, '_>, typed: &TypedNode) -> Result<Text, AskFault>
    requires inside { typed.now.node.0 < length asked.old.file.now.nodes }
{
    let file = asked.file;
    let mut out = Text::new(asked.alloc);
    let Ok(ty) = &typed.found else {
        out.push_str("! ! memory -")?;
        return Ok(out);
    };
    put_type(&mut out, ty, true)?;
    out.push_str(" ")?;
    put_type(&mut out, ty, false)?;
    out.push_str(" ")?;
    if let Ty::Unknown = ty {
        let cause = why(asked, typed.node)?;
        let text = cause_text(asked.alloc, cause)?;
        out.push_str(text.as_str())?;
    } else {
        out.push_str("-")?;
    }
    out.push_str(" ")?;
    let receiver = receiver_text(asked.alloc, file.tree(), typed.node)?;
    out.push_str(receiver.as_str())?;
    Ok(out)
}

// The erased parameters of the method that is chosen for a call.
fn said_chosen(asked: &mut Asked<'_, '_>, n: Node) -> Result<Text, AskFault> {
    let mut out = Text::new(asked.alloc);
    if n.0 >= asked.oracle.tree().len() {
        return Ok(out);
    }
    let Some((_, method)) = chosen(&mut asked.oracle, &mut asked.types, n)? else {
        out.push_str("?")?;
        return Ok(out);
    };
    out.push_str(method.owner.as_str())?;
    out.push_str("(")?;
    let mut is_first = true;
    for parameter in method.signature.arguments.as_slice() {
        if !is_first {
            out.push_str(",")?;
        }
        is_first = false;
        put_type(&mut out, parameter, true)?;
    }
    out.push_str(")")?;
    Ok(out)
}

// Says the type of a node.
fn say_node(
    rt: &HostRuntime,
    asked: &mut Asked<'_, '_>,
    path: &str,
    typed: &TypedNode,
) -> anyhow::Result<()> {
    let file = asked.file;
    let (tree, n) = (file.tree(), typed.node);
    if n.0 >= tree.len() {
        return Ok(());
    }
    let span = tree.span(n);
    let (kind, name) = (tree.kind(n).name(), name_of(tree, n));
    match said(asked, typed) {
        Ok(text) => println!(rt;
            "node {path} {} {} {} {kind} {name} {}",
            n.0, span.from, span.to, text.as_str()
        )?,
        Err(_) => println!(rt; "sum: {path}: out of memory at {}", span.from)?,
    }
    Ok(())
}

// Whether a node is a call.
fn is_call(kind: Kind) -> bool {
    match kind {
        Kind::MethodCall | Kind::ConstructorCall | Kind::ExplicitConstructorInvocation => true,
        _ => false,
    }
}

// Says what is chosen for a call.
fn say_call(rt: &HostRuntime, asked: &mut Asked<'_, '_>, path: &str, n: Node) -> anyhow::Result<()> {
    let file = asked.file;
    let tree = file.tree();
    if n.0 >= tree.len() || !is_call(tree.kind(n)) {
        return Ok(());
    }
    let (span, kind) = (tree.span(n), tree.kind(n).name());
    match said_chosen(asked, n) {
        Ok(text) => println!(rt;
            "call {path} {} {} {kind} {}",
            span.from, span.to, text.as_str()
        )?,
        Err(_) => println!(rt; "sum: {path}: out of memory at {}", span.from)?,
    }
    Ok(())
}

// Says the type of each node, and what is chosen for each call.
fn say_all(
    rt: &HostRuntime,
    file: &File<'_>,
    jdk: &mut Jdk,
    path: &str,
    nodes: &[TypedNode],
) -> anyhow::Result<()> {
    let mut held = Held::new(rt.alloc());
    let mut asked = Asked {
        alloc: rt.alloc(),
        file,
        oracle: FileOracle::new(rt.alloc(), file, jdk, &mut held),
        types: Typed::new(rt.alloc()),
    };
    for typed in nodes {
        say_node(rt, &mut asked, path, typed)?;
    }
    for n in 0..file.tree().len() {
        say_call(rt, &mut asked, path, Node(n))?;
    }
    Ok(())
}

// What is wanted of a file.
#[derive(Clone, Copy)]
struct Wanted {
    // A line for each node.
    nodes: bool,
    // The time of the last variable by itself.
    last: bool,
}

// Of the nodes those whose type is not known, and those that wanted memory.
fn count_unknown(nodes: &[TypedNode]) -> (u32, u32) {
    let mut unknown = 0u32;
    let mut memory = 0u32;
    for typed in nodes {
        match &typed.found {
            Ok(Ty::Unknown) => unknown = unknown.saturating_add(1),
            Ok(_) => {}
            Err(_) => memory = memory.saturating_add(1),
        }
    }
    (unknown, memory)
}

// Types the nodes of a tree.
fn add_tree(
    rt: &HostRuntime,
    tree: &SyntaxTree<'_>,
    jdk: &mut Jdk,
    path: &str,
    wanted: Wanted,
    parsing: u64,
) -> anyhow::Result<()> {
    let start = now(rt)?;
    let symbols = Symbols::of(rt.alloc(), tree)?;
    let declarations = Declarations::of(rt.alloc(), tree)?;
    let file = File::new(rt.alloc(), tree, &symbols, &declarations)?;
    let declaring = now(rt)?.saturating_sub(start);
    let mut last = 0;
    if wanted.last {
        let start = now(rt)?;
        if let Err(_) = type_last(rt.alloc(), &file, jdk) {
            println!(rt; "sum: {path}: out of memory at its last variable")?;
        }
        last = now(rt)?.saturating_sub(start);
    }
    let before = jdk.asked;
    let start = now(rt)?;
    let nodes = type_all(rt.alloc(), &file, jdk)?;
    let typing = now(rt)?.saturating_sub(start);
    let asked = jdk.asked.saturating_sub(before);
    let (unknown, memory) = count_unknown(nodes.as_slice());
    println!(rt;
        "file {path} {} {} {unknown} {memory} {asked} {parsing} {declaring} {typing} {last}",
        tree.len(), nodes.len()
    )?;
    if wanted.nodes {
        say_all(rt, &file, jdk, path, nodes.as_slice())?;
    }
    Ok(())
}

fn add_file(
    rt: &HostRuntime,
    grammar: &WellFormed,
    jdk: &mut Jdk,
    path: &str,
    wanted: Wanted,
) -> anyhow::Result<()>
    requires { forms_of grammar.now ≡ java_17_forms }
{
    let bytes = fs::read(rt, path)?;
    if bytes.len() > 4_000_000 {
        println!(rt; "sum: {path}: more than 4,000,000 bytes")?;
        return Ok(());
    }
    let start = now(rt)?;
    let Ok(source) = read_file(rt.alloc(), &bytes) else {
        println!(rt; "sum: {path}: no text")?;
        return Ok(());
    };
    match parse_file_by(rt.alloc(), grammar, &source) {
        Ok(parsed) => {
            let parsing = now(rt)?.saturating_sub(start);
            add_tree(rt, &parsed.tree, jdk, path, wanted, parsing)
        }
        Err(_) => {
            println!(rt; "sum: {path}: no tree")?;
            Ok(())
        }
    }
}

fn type_files(
    rt: &HostRuntime,
    jdk: &mut Jdk,
    list: &str,
    wanted: Wanted,
) -> anyhow::Result<()> {
    let Ok(grammar) = java_17(rt.alloc()) else {
        println!(rt; "sum: out of memory")?;
        return Ok(());
    };
    let paths = fs::read_to_string(rt, list)?;
    for path in paths.as_str().lines() {
        add_file(rt, &grammar, jdk, path, wanted)?;
    }
    Ok(())
}

// Says the peak of resident memory.
fn say_peak(rt: &HostRuntime) -> anyhow::Result<()> {
    let status = fs::read_to_string(rt, "/proc/self/status")?;
    for line in status.as_str().lines() {
        if line.starts_with("VmHWM:") {
            println!(rt; "sum: {line}")?;
        }
    }
    Ok(())
}

fn main(rt: HostRuntime) -> anyhow::Result<()> {
    let mut jdk = Jdk {
        alloc: rt.alloc(),
        classes: BTreeMap::new(rt.alloc()),
        asked: 0,
    };
    for word in env::args(&rt)?.skip(1) {
        if let Some(list) = word.as_str().strip_prefix("classes=") {
            jdk = read_classes(&rt, list)?;
            say_peak(&rt)?;
        } else if let Some(list) = word.as_str().strip_prefix("times=") {
            type_files(&rt, &mut jdk, list, Wanted { nodes: false, last: false })?;
            say_peak(&rt)?;
        } else if let Some(list) = word.as_str().strip_prefix("nodes=") {
            type_files(&rt, &mut jdk, list, Wanted { nodes: true, last: false })?;
        } else if let Some(list) = word.as_str().strip_prefix("shapes=") {
            type_files(&rt, &mut jdk, list, Wanted { nodes: false, last: true })?;
            say_peak(&rt)?;
        }
    }
    Ok(())
}
PROGRAM
cat > "$scratch/shapes.py" <<'PYTHON'
import sys
folder = sys.argv[1]

OVERLOADS = ['int', 'long', 'double', 'char', 'String', 'Object', 'int[]', 'CharSequence']
ARGUMENTS = ['1', '2L', '3.0', "'c'", '"text"', 'this', 'new int[1]', 'text']
METHODS = ''.join(f'    {ty} f({ty} a) {{ return a; }}\n' for ty in OVERLOADS)


def write(shape, count, members):
    with open(f'{folder}/{shape}_{count}.java', 'w', encoding='utf-8') as file:
        file.write('class A {\n    StringBuilder text;\n' + METHODS + members + '}\n')


def in_methods(statements):
    """The statements, in methods of a hundred."""
    parts = [statements[i:i + 100] for i in range(0, len(statements), 100)]
    return ''.join(f'    void m{i}() {{\n        ' + '\n        '.join(part) + '\n    }\n' for i, part in enumerate(parts))


def in_one(statements):
    return '    void m() {\n        ' + '\n        '.join(statements) + '\n    }\n'


for count in (1000, 2000, 5000):
    write('calls_of_the_file', count, in_methods([f'f({ARGUMENTS[i % 8]});' for i in range(count)]))
    write('calls_of_a_class', count, in_methods([f'text.append({ARGUMENTS[i % 8]});' for i in range(count)]))
for count in (1000, 2000, 5000):
    write('many_methods', count, ''.join(f'    int g{i}(int a) {{ return g{(i * 7) % count}(a); }}\n' for i in range(count)))
    write('many_fields', count, ''.join(f'    int x{i} = this.x{(i * 7) % count};\n' for i in range(count)))
for count in (10000, 20000, 28000):
    write('var_sums', count, in_one(['var v0 = 1;'] + [f'var v{i} = v{i - 1} + v{i - 1};' for i in range(1, count)]))
for count in (10000, 20000, 39000):
    write('var_names', count, in_one(['var v0 = 1;'] + [f'var v{i} = v{i - 1};' for i in range(1, count)]))
for count in (5000, 10000, 19000):
    write('var_arguments', count, in_one(['var v0 = 1;'] + [f'var v{i} = f(v{i - 1});' for i in range(1, count)]))
for count in (500, 1000, 2000):
    write('var_receivers', count, in_one(['var v0 = text;'] + [f'var v{i} = v{i - 1}.append(1);' for i in range(1, count)]))
for count in (100, 200, 400, 900):
    write('one_chain', count, '    Object m() { return text' + '.append(1)' * count + '; }\n')
for count in (100, 200, 400, 950):
    write('one_sum', count, '    int m(int a) { return a' + ' + a' * count + '; }\n')
for count in (50, 100, 200, 490):
    write('one_nest', count, '    Object m() { return ' + 'f(' * count + '1' + ')' * count + '; }\n')
PYTHON
cat > "$scratch/sums.py" <<'PYTHON'
"""The sums of the files of a list, and the types that are not known by their causes."""
import collections, sys
from itertools import groupby
times, nodes = sys.argv[1:]


def say_times(lines):
    """The sums, and the files that take most."""
    files = [(parts[1], [int(part) for part in parts[2:]]) for parts in lines]
    all_nodes, typed, unknown, memory, asked, parsing, declaring, typing, _ = (sum(column) for column in zip(*(numbers for _, numbers in files)))
    print(f'{len(files)} files with a tree, {all_nodes} nodes, {typed} types, {unknown} not known, {memory} that wanted memory')
    print(f'{parsing // 1000} ms of parsing, {declaring // 1000} ms of declarations, {typing // 1000} ms of types, {asked} times a class was asked for')
    print(f'types take {typing / max(parsing, 1):.2f} of what parsing takes, {1000 * typing // max(typed, 1)} ns and {asked / max(typed, 1):.1f} questions a type')
    print('the slowest files: ms of types, ms of parsing, types')
    for path, numbers in sorted(files, key=lambda file: -file[1][7])[:10]:
        print(f'{numbers[7] // 1000:6} {numbers[5] // 1000:6} {numbers[1]:7} {path}')


def say_causes(lines):
    """How many types are not known, by the node that is the first of them."""
    direct, all_of = collections.Counter(), collections.Counter()
    for _, of_file in groupby(lines, lambda parts: parts[1]):
        unknown = {}
        for parts in of_file:
            if parts[7] == '?':
                unknown[parts[2]] = parts
        for n in unknown:
            first, steps = n, 0
            while unknown[first][9] in unknown and steps < len(unknown):
                first, steps = unknown[first][9], steps + 1
            cause = unknown[first][5] + ': ' + ('another node' if unknown[first][9].isdigit() else unknown[first][9])
            all_of[cause] += 1
            direct[cause] += first == n
    print('not known by the first cause: nodes that have it by themselves, and all that have it')
    for cause, count in all_of.most_common():
        print(f'{direct[cause]:7} {count:7} {cause}')


with open(times, encoding='utf-8') as file:
    say_times([line.split() for line in file if line.startswith('file ')])
with open(nodes, encoding='utf-8') as file:
    say_causes(line.rstrip('\n').split(' ') for line in file if line.startswith('node '))
PYTHON
cd "$bench"
if [ -n "$unproved" ]; then build_unproved types_bench; else rt run > "$scratch/log" 2>&1 || { tail -n 40 "$scratch/log"; exit 1; }; fi
out/types_bench "classes=$scratch/classes" "times=$scratch/sources" | sed "s|$folder/||" > "$scratch/times"
out/types_bench "classes=$scratch/classes" "nodes=$scratch/sources" | sed "s|$folder/||" > "$scratch/nodes"
cat "$scratch/nodes" > "$all_nodes"
grep '^sum: ' "$scratch/times" | sed 's/^sum: //'
python3 "$scratch/sums.py" "$scratch/times" "$scratch/nodes"
mkdir "$scratch/made"
python3 "$scratch/shapes.py" "$scratch/made"
find "$scratch/made" -name '*.java' | LC_ALL=C sort -V > "$scratch/shapes"
echo 'made files: types, ms of parsing, of the last variable, of all types'
out/types_bench "classes=$scratch/classes" "shapes=$scratch/shapes" | sed "s|$scratch/made/||; s|\.java||" |
    awk '/^file / { printf "%-24s %7d %6d %6d %6d\n", $2, $4, $8 / 1000, $11 / 1000, $10 / 1000 } /^sum: .*: / { print }'
