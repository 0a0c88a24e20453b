#!/usr/bin/env bash
# Names of types of real Java sources: each one is looked up where it is written, over the classes of this machine's JDK.
#
#   bench/names.sh FOLDER [FILE]      as the module java.base of Debian's package openjdk-17-source, unpacked
#
# It extracts the JDK's image, makes a scratch repository of the libraries and of a small program, proves both (which takes minutes
# where nothing of them is kept on this machine), and runs the program. Every class file of java.base is an answer; then each class type of each
# file of the folder that ends in .java, module-info.java left out, is looked up at its place by `type_name`: its whole name, with dots where it has some, each one
# once. It prints how many are a class of the JDK or of their file, a type parameter, the name of a class that is not there, and not known; how
# many files have no tree; names a second of processor time, the slowest file, classes asked for, and the peak of resident memory. Behind that come up to 50 of
# the names that are not known or not there, spread over all of them, each with file, byte offset (of the text with its Unicode escapes
# translated), name, and the class that is not there. FILE gets such a line for every name; bench/names_javac.sh compares them with what javac
# says. It wants jimage, of the JDK whose sources FOLDER has.
set -euo pipefail
folder=$(cd "$1" && pwd)
all_names=$(readlink -f "${2:-/dev/null}")
. "$(dirname "$0")/scratch.sh"
libraries='pj_base pj_classfile pj_declared pj_grammar pj_outer_names pj_names pj_parse pj_peg pj_peg_grammar pj_symbols pj_tree pj_type_names pj_written'
# shellcheck disable=SC2046,SC2086 # names of crates have no spaces
scratch_repository names_bench "anyhow $libraries" $(with_lower_crates $libraries)
home=$(dirname "$(dirname "$(readlink -f "$(command -v jimage)")")")
jimage extract --dir "$scratch/jdk" --include regex:/java.base/.*class "$home/lib/modules"
find "$scratch/jdk" -name '*.class' ! -name module-info.class | LC_ALL=C sort > "$scratch/classes"
find "$folder" -name '*.java' ! -name module-info.java | LC_ALL=C sort > "$scratch/sources"
cat > "$bench/src/main.rt" <<'PROGRAM'
// Every name of a type in many files, looked up over the classes of a JDK.
#![tactic(auto)]

ghost use Rattle.std.specs.Prelude.{◌≡◌, ◌<◌, ◌≤◌, [], false, length};
ghost use Rattle.std.specs.FinSet as set;
ghost use Rattle.pj_names.specs.AnswerList.{list_world};
ghost use Rattle.pj_grammar.specs.Java17.{java_17_forms};
ghost use Rattle.pj_peg_grammar.specs.Form.{forms_of};

use pj_base::{Copied, NoMemory, Text};
use pj_classfile::{ClassRefused, parse};
use pj_declared::Declarations;
use pj_grammar::java_17;
use pj_outer_names::File;
use pj_names::{Answer, AskFault, ClassName, Oracle, Ty};
use pj_parse::{parse_file_by, read_file};
use pj_peg::WellFormed;
use pj_symbols::Symbols;
use pj_tree::{Kind, Node, SyntaxTree};
use pj_type_names::type_name;
use pj_written::{with_dots, written_name};
use std::alloc::Global;
use std::collections::BTreeMap;
use std::sync::Arc;
use std::time::CpuClock;
use std::{env, fs};

// The classes of the JDK, and how often one was asked for. It does not tell its world.
#[derive(Drop)]
struct Jdk {
    alloc: Global,
    classes: BTreeMap<ClassName, Arc<Answer>>,
    asked: u64,
}

impl Oracle for Jdk {
    ghost use Rattle.std.specs.Prelude.{[], false};
    ghost use Rattle.std.specs.FinSet as set;
    ghost use Rattle.pj_names.specs.AnswerList.{list_world};

    ghost Kept = { Unit {0} };

    ghost tells = { λ jdk. record { is_told = false; world = λ depth. list_world []; kept = tt; asked = set.empty; faults = 0 } };

    fn ask(&mut self, name: &ClassName) -> Result<Arc<Answer>, AskFault> {
        self.asked = self.asked.saturating_add(1);
        match self.classes.get(name) {
            Some(answer) => Ok(answer.clone()?),
            None => Ok(Arc::new(self.alloc, Answer::Absent)?),
        }
    }
}

// What names are. Times are in microseconds.
#[derive(Clone, Copy)]
struct Sums {
    files: u64,
    trees: u64,
    names: u64,
    classes: u64,
    parameters: u64,
    absent: u64,
    unknown: u64,
    no_memory: u64,
    spent: u64,
    slowest: u64,
}

// What a name is.
#[derive(Clone, Copy)]
enum Meant {
    Class,
    TypeParameter,
    Absent,
    Unknown,
    NoMemory,
}

fn now(rt: &HostRuntime) -> anyhow::Result<u64> {
    Ok((rt.process_cpu_time()?.as_micros() % (1 << 60)) as u64)
}

// Puts the class of a file among the classes.
fn put_class(rt: &HostRuntime, jdk: &mut Jdk, path: &str) -> anyhow::Result<()> {
    let bytes = fs::read(rt, path)?;
    if bytes.len() > 4_000_000_000 {
        return Ok(());
    }
    match parse(rt.alloc(), &bytes) {
        Ok(class) => {
            let name = class.name.copied()?;
            let answer = Arc::new(rt.alloc(), Answer::Found(class))?;
            let _ = jdk.classes.insert(name, answer)?;
        }
        Err(ClassRefused::Fault(fault)) => println!(rt;
            "{path}: fault {} at {}",
            fault.kind, fault.offset
        )?,
        Err(ClassRefused::Memory) => println!(rt; "{path}: out of memory")?,
    }
    Ok(())
}

// Whether the file declares a class of that binary name.
fn is_declared(file: &File<'_>, name: &str) -> bool {
    for class in file.classes().as_slice() {
        if class.name.as_str() == name {
            return true;
        }
    }
    false
}

// What the name of a class is.
fn meant_class(file: &File<'_>, jdk: &Jdk, name: &ClassName) -> Meant {
    if jdk.classes.contains_key(name) || is_declared(file, name.as_str()) {
        Meant::Class
    } else {
        Meant::Absent
    }
}

// What was found.
fn meant_by(file: &File<'_>, jdk: &Jdk, found: &Result<Ty, AskFault>) -> Meant {
    match found {
        Ok(Ty::Class(name, _)) => meant_class(file, jdk, name),
        Ok(Ty::Var(_, _)) => Meant::TypeParameter,
        Ok(_) => Meant::Unknown,
        Err(_) => Meant::NoMemory,
    }
}

// Counts a name.
fn counted(sums: Sums, meant: Meant) -> Sums {
    let mut sums = Sums {
        names: sums.names.saturating_add(1),
        ..sums
    };
    match meant {
        Meant::Class => sums.classes = sums.classes.saturating_add(1),
        Meant::TypeParameter => sums.parameters = sums.parameters.saturating_add(1),
        Meant::Absent => sums.absent = sums.absent.saturating_add(1),
        Meant::Unknown => sums.unknown = sums.unknown.saturating_add(1),
        Meant::NoMemory => sums.no_memory = sums.no_memory.saturating_add(1),
    }
    sums
}

// The binary name of the class that was found.
fn class_found(found: &Result<Ty, AskFault>) -> &str {
    match found {
        Ok(Ty::Class(name, _)) => name.as_str(),
        _ => "-",
    }
}

// The word for what a name is.
fn word_of(meant: Meant) -> &'static str {
    match meant {
        Meant::Class => "class",
        Meant::TypeParameter => "parameter",
        Meant::Absent => "absent",
        Meant::Unknown => "unknown",
        Meant::NoMemory => "memory",
    }
}

// Whether the node is a class type with nothing behind a dot.
fn is_whole_name(tree: &SyntaxTree<'_>, n: Node) -> bool
    requires inside { n.0 < length tree.now.nodes }
{
    tree.kind(n) == Kind::ClassType
        && match tree.parent(n) {
            Some(above) => tree.kind(above) != Kind::ClassType,
            None => true,
        }
}

// A name that was looked up: where it stands, how it is written, and what was found.
#[derive(Drop)]
struct LookedUp {
    from: u32,
    text: Text,
    found: Result<Ty, AskFault>,
}

// Looks up one name.
fn look_up(alloc: Global, file: &File<'_>, jdk: &mut Jdk, n: Node) -> anyhow::Result<LookedUp>
    requires inside { n.0 < length file.now.nodes }
{
    let written = written_name(alloc, file.tree(), n)?;
    let text = with_dots(alloc, &written.parts)?;
    let found = type_name(alloc, file, jdk, n, text.as_str());
    Ok(LookedUp {
        from: file.tree().span(n).from,
        text,
        found,
    })
}

// Looks up the names of a file.
fn look_up_all(alloc: Global, file: &File<'_>, jdk: &mut Jdk) -> anyhow::Result<Vec<LookedUp>> {
    let mut names = Vec::new(alloc);
    for n in 0..file.tree().len() {
        if is_whole_name(file.tree(), Node(n)) {
            let name = look_up(alloc, file, jdk, Node(n))?;
            names.push(name)?;
        }
    }
    Ok(names)
}

// Says what each name of a file is, and counts it.
fn say_all(
    rt: &HostRuntime,
    file: &File<'_>,
    jdk: &Jdk,
    path: &str,
    names: &[LookedUp],
    sums: Sums,
) -> anyhow::Result<Sums> {
    let mut sums = sums;
    for name in names {
        let meant = meant_by(file, jdk, &name.found);
        let (word, text, class) = (word_of(meant), name.text.as_str(), class_found(&name.found));
        println!(rt; "{word} {path} {} {text} {class}", name.from)?;
        sums = counted(sums, meant);
    }
    Ok(sums)
}

// Looks up the names of a tree.
fn add_tree(
    rt: &HostRuntime,
    tree: &SyntaxTree<'_>,
    jdk: &mut Jdk,
    path: &str,
    sums: Sums,
) -> anyhow::Result<Sums> {
    let symbols = Symbols::of(rt.alloc(), tree)?;
    let declarations = Declarations::of(rt.alloc(), tree)?;
    let file = File::new(rt.alloc(), tree, &symbols, &declarations)?;
    let start = now(rt)?;
    let names = look_up_all(rt.alloc(), &file, jdk)?;
    let took = now(rt)?.saturating_sub(start);
    let sums = say_all(rt, &file, jdk, path, names.as_slice(), sums)?;
    Ok(Sums {
        trees: sums.trees.saturating_add(1),
        spent: sums.spent.saturating_add(took),
        slowest: sums.slowest.max(took),
        ..sums
    })
}

fn add_file(
    rt: &HostRuntime,
    grammar: &WellFormed,
    jdk: &mut Jdk,
    path: &str,
    sums: Sums,
) -> anyhow::Result<Sums>
    requires { forms_of grammar.now ≡ java_17_forms }
{
    let bytes = fs::read(rt, path)?;
    let sums = Sums {
        files: sums.files.saturating_add(1),
        ..sums
    };
    if bytes.len() > 1_048_576 {
        println!(rt; "{path}: more than 1,048,576 bytes")?;
        return Ok(sums);
    }
    let Ok(source) = read_file(rt.alloc(), &bytes) else {
        println!(rt; "{path}: no text")?;
        return Ok(sums);
    };
    match parse_file_by(rt.alloc(), grammar, &source) {
        Ok(parsed) => add_tree(rt, &parsed.tree, jdk, path, sums),
        Err(_) => {
            println!(rt; "{path}: no tree")?;
            Ok(sums)
        }
    }
}

fn peak(rt: &HostRuntime) -> anyhow::Result<String> {
    let status = fs::read_to_string(rt, "/proc/self/status")?;
    for line in status.as_str().lines() {
        if line.starts_with("VmHWM:") {
            return Ok(String::from_str(rt.alloc(), line)?);
        }
    }
    Ok(String::new(rt.alloc()))
}

// The classes of a list of class files.
fn read_classes(rt: &HostRuntime, list: &str) -> anyhow::Result<Jdk> {
    let mut jdk = Jdk {
        alloc: rt.alloc(),
        classes: BTreeMap::new(rt.alloc()),
        asked: 0,
    };
    let paths = fs::read_to_string(rt, list)?;
    for path in paths.as_str().lines() {
        put_class(rt, &mut jdk, path)?;
    }
    Ok(jdk)
}

fn look_up_files(rt: &HostRuntime, jdk: &mut Jdk, list: &str) -> anyhow::Result<()> {
    let mut sums = Sums {
        files: 0,
        trees: 0,
        names: 0,
        classes: 0,
        parameters: 0,
        absent: 0,
        unknown: 0,
        no_memory: 0,
        spent: 0,
        slowest: 0,
    };
    let Ok(grammar) = java_17(rt.alloc()) else {
        println!(rt; "out of memory")?;
        return Ok(());
    };
    let paths = fs::read_to_string(rt, list)?;
    for path in paths.as_str().lines() {
        sums = add_file(rt, &grammar, jdk, path, sums)?;
    }
    let Sums {
        files,
        trees,
        names,
        classes,
        parameters,
        absent,
        unknown,
        no_memory,
        spent,
        slowest,
    } = sums;
    let rate = names.saturating_mul(1_000_000) / spent.max(1);
    let (all, longest, asked) = (spent / 1000, slowest / 1000, jdk.asked);
    let peak = peak(rt)?;
    println!(rt;
        "sum: {names} names in {trees} files of {files}: {classes} classes, {parameters} type parameters, {absent} classes that are not there, {unknown} not known, {no_memory} that wanted memory"
    )?;
    println!(rt;
        "sum: {all} ms, {rate} names/s, slowest file {longest} ms, {asked} times a class was asked for, {peak}"
    )?;
    Ok(())
}

fn main(rt: HostRuntime) -> anyhow::Result<()> {
    let mut jdk = Jdk {
        alloc: rt.alloc(),
        classes: BTreeMap::new(rt.alloc()),
        asked: 0,
    };
    for word in env::args(&rt)?.skip(1) {
        if let Some(list) = word.as_str().strip_prefix("classes=") {
            jdk = read_classes(&rt, list)?;
        } else if let Some(list) = word.as_str().strip_prefix("sources=") {
            look_up_files(&rt, &mut jdk, list)?;
        }
    }
    Ok(())
}
PROGRAM
cd "$bench"
rt run -- "classes=$scratch/classes" "sources=$scratch/sources" > "$scratch/said"
sed "s|$folder/||" "$scratch/said" > "$scratch/names"
grep -E '^sum: |: no t|: more than|^/.*: fault|out of memory' "$scratch/names" | sed 's/^sum: //'
grep -E '^(class|parameter|absent|unknown|memory) ' "$scratch/names" > "$all_names" || true
grep -E '^(absent|unknown|memory) ' "$scratch/names" > "$scratch/others" || true
step=$(($(wc -l < "$scratch/others") / 50 + 1))
awk -v step="$step" 'NR % step == 1 || step == 1' "$scratch/others"
