#!/usr/bin/env bash
# Reads every class of this machine's JDK, and compares some with what javap says.
#
# It extracts the JDK's image, makes a scratch repository of the libraries and of a small program, proves both (which takes
# minutes where nothing of them is kept on this machine), and runs the program. The first part prints how many class files
# are classes, every refusal with its fault, and the time; then how many files module-info.class are: these are no classes, since
# they have no superclass, which is fault 5. The second part takes some 240 classes, spread over the list, and compares name, flags,
# signature, and each field and method with flags, name and signature, with what `javap -v -p` prints: the signatures where
# they are written, else the superclass and the interfaces, or the descriptor. It prints each class that differs, and how
# many are the same. The third part is made of classes in which one text of some 60,000 bytes is named 8,000, 16,000 and 32,000
# times: as the signature of the class, as a field's second signature, as a field's descriptor beside a short signature, and as
# an interface. A text is judged once, so a row's time should grow with the file and not with the square of it. It wants jimage,
# javap and python3.
set -euo pipefail
. "$(dirname "$0")/scratch.sh"
scratch_repository classes_bench 'pj_classfile pj_names' pj_base pj_names pj_format pj_outside pj_signatures pj_classfile
home=$(dirname "$(dirname "$(readlink -f "$(command -v javap)")")")
jimage extract --dir "$scratch/jdk" "$home/lib/modules"
find "$scratch/jdk" -name '*.class' | LC_ALL=C sort > "$scratch/all"
grep -v '/module-info.class$' "$scratch/all" > "$scratch/classes"
grep '/module-info.class$' "$scratch/all" > "$scratch/modules"
step=$(($(wc -l < "$scratch/classes") / 240))
awk -v step="$step" 'NR % step == 0' "$scratch/classes" > "$scratch/some"
cat > "$bench/src/main.rt" <<'PROGRAM'
// Class files, one for each path of a list: a line for each, and the counts.
#![tactic(auto)]

use pj_classfile::{ClassRefused, parse};
use pj_names::{ClassInfo, Members};
use std::alloc::{AllocError, Global};
use std::time::CpuClock;
use std::{env, fs, io};

fn push_members(alloc: Global, line: &mut String, kind: &str, members: &Members) -> Result<(), AllocError> {
    for member in members.as_slice() {
        line.push_str("\n  ")?;
        line.push_str(kind)?;
        line.push_str(format!(in alloc; " {} ", member.flags)?.as_str())?;
        line.push_str(member.name.as_str())?;
        line.push_str(" ")?;
        line.push_str(member.signature.as_str())?;
    }
    Ok(())
}

fn shown(alloc: Global, class: &ClassInfo) -> Result<String, AllocError> {
    let mut line = String::from_str(alloc, "class ")?;
    line.push_str(class.name.as_str())?;
    line.push_str(format!(in alloc; " {} ", class.flags)?.as_str())?;
    line.push_str(class.signature.as_str())?;
    push_members(alloc, &mut line, "field", &class.fields)?;
    push_members(alloc, &mut line, "method", &class.methods)?;
    Ok(line)
}

// What is said of a class file, and whether it is a class.
fn judged(alloc: Global, bytes: &[u8], whole: bool) -> Result<(String, bool), AllocError> {
    if bytes.len() > 4_294_967_294 {
        return Ok((String::from_str(alloc, "too long")?, false));
    }
    match parse(alloc, bytes) {
        Ok(class) => {
            if whole {
                Ok((shown(alloc, &class)?, true))
            } else {
                Ok((String::new(alloc), true))
            }
        }
        Err(ClassRefused::Fault(fault)) => {
            Ok((format!(in alloc; "fault {} at {}", fault.kind, fault.offset)?, false))
        }
        Err(ClassRefused::Memory) => Ok((String::from_str(alloc, "no memory")?, false)),
    }
}

fn read_all(rt: &HostRuntime, list: &str, whole: bool) -> io::Result<()> {
    let paths = fs::read_to_string(rt, list)?;
    let mut found = 0u32;
    let mut refused = 0u32;
    for path in paths.as_str().lines() {
        let bytes = fs::read(rt, path)?;
        let (line, is_class) = judged(rt.alloc(), &bytes, whole)?;
        if is_class {
            found = found.saturating_add(1);
        } else {
            refused = refused.saturating_add(1);
            println!(rt; "{path}: refused")?;
        }
        if whole || !is_class {
            println!(rt; "{line}")?;
        }
    }
    println!(rt; "found {found}, refused {refused}")
}

fn now(rt: &HostRuntime) -> io::Result<u64> {
    Ok((rt.process_cpu_time()?.as_micros() % (1 << 60)) as u64)
}

// How long one class file takes.
fn time_one(rt: &HostRuntime, path: &str) -> io::Result<()> {
    let bytes = fs::read(rt, path)?;
    let start = now(rt)?;
    let (line, is_class) = judged(rt.alloc(), &bytes, false)?;
    let spent = now(rt)?.saturating_sub(start);
    let size = bytes.len();
    let name = path.rsplit('/').next().unwrap_or(path);
    println!(rt; "{name}: {size} bytes, {spent} us, a class: {is_class} {line}")
}

fn main(rt: HostRuntime) -> io::Result<()> {
    let mut whole = false;
    for word in env::args(&rt)? {
        if word.as_str() == "--whole" {
            whole = true;
        } else if let Some(path) = word.as_str().strip_prefix("time=") {
            time_one(&rt, path)?;
        } else if let Some(list) = word.as_str().strip_prefix("list=") {
            read_all(&rt, list, whole)?;
        }
    }
    Ok(())
}
PROGRAM
cat > "$scratch/compare.py" <<'COMPARE'
import re, sys

def fresh(path):
    return {"path": path, "flags": None, "name": None, "super": None, "head": "", "signature": None, "members": []}

def member_name(line, name):
    if line == "static {};":
        return "<clinit>"
    found = re.match(r"[^(]*?([^\s(]+)\(", line)
    if found:
        return "<init>" if found.group(1) == name else found.group(1)
    return line.rstrip(";").split()[-1]

def made(c):
    if c["signature"]:
        return c["signature"]
    head = c["head"]
    is_interface = re.search(r"(^|\s)interface\s", head)
    words = " extends " if is_interface else " implements "
    names = head.split(words, 1)[1].split(",") if words in head else []
    superclass = c["super"] or "java/lang/Object"
    return "".join("L%s;" % n.strip().replace(".", "/") for n in [superclass] + names)

def lines_of(c):
    out = ["class %s %d %s" % (c["name"], c["flags"], made(c))]
    for m in c["members"]:
        kind = "method" if m["descriptor"].startswith("(") else "field"
        out.append("  %s %d %s %s" % (kind, m["flags"], m["name"], m["signature"] or m["descriptor"]))
    return out

def by_javap(path):
    classes, c, inside, in_pool, member = [], None, False, False, None
    for line in open(path, encoding="utf-8"):
        line = line.rstrip("\n")
        if line.startswith("Classfile "):
            c, inside, in_pool, member = fresh(line[10:]), False, False, None
            classes.append(c)
        elif line.startswith("Constant pool:"):
            in_pool = True
        elif line == "{":
            inside, in_pool = True, False
        elif line == "}":
            inside, member = False, None
        elif in_pool:
            continue
        elif not inside:
            if line.startswith("  flags: (0x"):
                c["flags"] = int(line[12:16], 16)
            elif line.startswith("  this_class: "):
                c["name"] = line.split("// ", 1)[1].strip('"').replace("/", ".")
            elif line.startswith("  super_class: ") and "// " in line:
                c["super"] = line.split("// ", 1)[1].strip('"')
            elif line.startswith("Signature: #"):
                c["signature"] = line.split("// ", 1)[1]
            elif c["flags"] is None and line and not line.startswith(" "):
                c["head"] = line
        elif line.startswith("  ") and not line.startswith("   ") and line.endswith(";"):
            member = {"name": member_name(line.strip(), c["name"]), "flags": None, "descriptor": None, "signature": None}
            c["members"].append(member)
        elif line.startswith("    descriptor: "):
            member["descriptor"] = line[16:]
        elif line.startswith("    flags: (0x"):
            member["flags"] = int(line[14:18], 16)
        elif line.startswith("    Signature: #"):
            member["signature"] = line.split("// ", 1)[1]
    return classes

def by_reader(path):
    classes = []
    for line in open(path, encoding="utf-8"):
        line = line.rstrip("\n")
        if line.startswith("class "):
            classes.append([line])
        elif line.startswith("  field ") or line.startswith("  method "):
            classes[-1].append(line)
    return classes

theirs = {}
for c in by_javap(sys.argv[2]):
    theirs[c["name"]] = lines_of(c)
ours = by_reader(sys.argv[1])
same = 0
for a in ours:
    b = theirs.get(a[0].split()[1], [])
    if a == b:
        same += 1
    else:
        print("differs:", a[0])
        for x in a:
            if x not in b: print("  read  ", x)
        for x in b:
            if x not in a: print("  javap ", x)
print("read %d, by javap %d, the same %d" % (len(ours), len(theirs), same))
COMPARE
cat > "$scratch/repeat.py" <<'REPEAT'
import struct, sys

folder = sys.argv[1]

def u2(n): return struct.pack(">H", n)
def u4(n): return struct.pack(">I", n)
def utf8(text): return b"\x01" + u2(len(text)) + text

LONG_CLASS = b"Ljava/lang/Object;" + b"La;" * 20000
LONG_NAME = b"p/" + b"a" * 60000
LONG_TYPE = b"L" + LONG_NAME + b";"
# 1 Signature, 2 p/X, 3 class, 4 Object, 5 class, 6 field name, 7 int, 8 long type, 9 long class signature, 10 short type, 11 short
# class signature, 12 long name, 13 its class
POOL = [utf8(b"Signature"), utf8(b"p/X"), b"\x07" + u2(2), utf8(b"java/lang/Object"), b"\x07" + u2(4), utf8(b"f"), utf8(b"I"),
        utf8(LONG_TYPE), utf8(LONG_CLASS), utf8(b"TT;"), utf8(b"Ljava/lang/Object;"), utf8(LONG_NAME), b"\x07" + u2(12)]

def signature(index): return u2(1) + u4(2) + u2(index)
def table(attributes): return u2(len(attributes)) + b"".join(attributes)
def field(descriptor, signatures): return u2(0) + u2(6) + u2(descriptor) + table([signature(s) for s in signatures])
def made(interfaces, fields, signatures):
    return (u4(0xcafebabe) + u2(0) + u2(61) + u2(len(POOL) + 1) + b"".join(POOL) + u2(0x21) + u2(3) + u2(5)
        + u2(len(interfaces)) + b"".join(u2(i) for i in interfaces) + u2(len(fields)) + b"".join(fields) + u2(0) + table([signature(s) for s in signatures]))

for n in (8000, 16000, 32000):
    for name, bytes in [("class_signature", made([], [], [11] + [9] * n)), ("second_signature", made([], [field(7, [10, 8])] * n, [11])),
                        ("descriptor", made([], [field(8, [10])] * n, [11])), ("interface", made([13] * n, [], [11]))]:
        open(f"{folder}/{name}_{n}", "wb").write(bytes)
REPEAT
cd "$bench"
rt run > /dev/null
program=out/classes_bench
echo 'classes:'
time $program "list=$scratch/classes"
echo 'module-info.class:'
$program "list=$scratch/modules" | tail -n 1
$program --whole "list=$scratch/some" > "$scratch/ours"
xargs javap -v -p < "$scratch/some" > "$scratch/theirs"
python3 "$scratch/compare.py" "$scratch/ours" "$scratch/theirs"
mkdir "$scratch/repeated"
python3 "$scratch/repeat.py" "$scratch/repeated"
echo 'one text, named often:'
for name in class_signature second_signature descriptor interface; do
    for count in 8000 16000 32000; do $program "time=$scratch/repeated/${name}_$count"; done
done
