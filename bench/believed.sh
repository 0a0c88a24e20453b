#!/usr/bin/env bash
# What a reader of a call's contract has to believe: the definitions that its clauses reach, by crate in the order of reading (from the
# clause downwards), with their lines without imports and comments. A definition reaches the names that stand in it, and no others of its
# file. Of a proof on which a definition rests only the statement counts, since the checker reads the rest. With `-v` each definition is
# printed. Takes another source file and function.
#   bench/believed.sh [-v] [crates/pmd/src/main.rt run]
set -u
cd "$(dirname "$0")/.." || exit 1
exec python3 - "$@" <<'PY'
import collections, os, re, sys

verbose = "-v" in sys.argv
words = [it for it in sys.argv[1:] if it != "-v"]
source, function = (words + ["crates/pmd/src/main.rt", "run"][len(words):])[:2]

HEAD = re.compile(r"^(?:(?:pub|abbrev|unfoldable|opaque)\s+)+(?:(record|data)\s+)?(?:pub\s+)?(\S+)|^(record|data)\s+(\S+)|^([^\s(){}:]+)\s*:\s")
NAME = re.compile(r"[^\s(){};,]+")
GHOST_USE = re.compile(r"^\s*(?:pub |ghost )*use (?:Rattle\.)(pj_\w+)\.(specs|proofs)\.([\w.]+?)(?:\.\{(.*?)\}|\s+as\s+(\S+?))?\s*;?\s*$", re.M | re.S)


def without_comments(text):
    return "\n".join(re.sub(r"(^|\s)--.*$", "", line) for line in text.split("\n"))


class Spec:
    """A file of specs/ or proofs/: its definitions, the names that it imports, and those of other names for a file or type."""

    def __init__(self, path):
        self.path, self.blocks, self.owner, self.imports, self.aliases = path, {}, {}, {}, {}
        text = without_comments(open(path, encoding="utf-8").read())
        read_imports(text, self.imports, self.aliases)
        block, is_proof, scopes = None, False, []
        for line in GHOST_USE.sub("", text).split("\n"):
            if not line.strip() or line.startswith(("infix", "use ", "pub use ", "pub mod ")):
                continue
            indent = len(line) - len(line.lstrip())
            while scopes and indent <= scopes[-1][0]:
                scopes.pop()
            bare = line[scopes[-1][0] + 2 if scopes else 0:]
            if re.match(r"(module\b.*\bwhere|mutual)\s*$", bare):
                scopes.append((indent, bare))
                block = None
                continue
            header = "\n".join(it for _, it in scopes)
            head = HEAD.match(bare) if not bare.startswith(" ") else None
            if head:
                name = head[2] or head[4] or head[5]
                if name not in self.blocks:
                    self.blocks[name] = [[], header, bool(re.search(r"\bdata\b", head[0]))]
                    # without one of these words nothing but the type is seen outside
                    is_proof = not re.search(r"\b(abbrev|unfoldable|record|data)\b", head[0])
                block = name
                self.owner[name] = name
            if block is None or is_proof and not head and not bare.startswith(" "):
                block = None
                continue
            self.blocks[block][0].append(bare)
            made = re.match(r"^\s+((?:\S+\s+)*?\S+)\s+:\s", bare)
            if self.blocks[block][2] and made and not head:
                for name in made[1].split():
                    self.owner.setdefault(name, block)

    def lines(self, name):
        return len(self.blocks[name][0])


def read_imports(text, imports, aliases):
    for crate, folder, path, members, alias in GHOST_USE.findall(text):
        if alias:
            aliases[alias] = (crate, folder, path)
        elif members:
            for it in members.split(","):
                name, _, local = it.strip().partition(" as ")
                if name:
                    imports[local.strip() or name] = (crate, folder, path, name)
        else:
            aliases[path.split(".")[-1]] = (crate, folder, path)


specs = {}


def file_of(crate, folder, path):
    parts = path.split(".")
    while parts:
        file = f"crates/{crate}/{folder}/{'/'.join(parts)}.antt"
        if os.path.isfile(file):
            if file not in specs:
                specs[file] = Spec(file)
            return specs[file]
        parts.pop()
    return None


def target(crate, folder, path, name):
    """The definition that an imported name stands for, or the type of the code."""
    spec = file_of(crate, folder, path)
    if spec is None:
        parts = [it for it in path.split(".") if it != "TheVariants"]
        return ("type", crate, parts[-1] if parts[0] in ("declared", "contracts") else name)
    if name in spec.owner:
        return ("spec", spec.path, spec.owner[name])
    if name in spec.imports:
        return target(*spec.imports[name])
    last = path.split(".")[-1]
    return ("spec", spec.path, spec.owner[last]) if last in spec.owner else None


def reached_by(text, imports, aliases, spec=None):
    """What the names in a text stand for."""
    found = set()
    tokens = set(NAME.findall(text))
    plain = tokens | {re.sub(r"^[λ]?|\.$", "", it) for it in tokens}
    for token in plain:
        first, dot, rest = token.partition(".")
        for name in {token, first}:
            if spec and name in spec.owner:
                found.add(("spec", spec.path, spec.owner[name]))
            elif name in imports:
                found.add(target(*imports[name]))
        if dot and first in aliases:
            crate, folder, path = aliases[first]
            found.add(target(crate, folder, path, rest.split(".")[0]))
    operators = {name: [it for it in name.split("◌") if it] for name in list(imports) + (list(spec.owner) if spec else []) if "◌" in name}
    for name, signs in operators.items():
        if signs and all(it in tokens for it in signs):
            found.add(("spec", spec.path, spec.owner[name]) if spec and name in spec.owner else target(*imports[name]))
    found.discard(None)
    return found


text = open(source, encoding="utf-8").read()
imports, aliases = {}, {}
read_imports(text, imports, aliases)
here = re.search(rf"^(?:pub )?fn {function}\b.*?^\{{", text, re.M | re.S)
if not here:
    sys.exit(f"{source} has no function {function}")
clauses = "\n".join(re.findall(r"^\s+(?:ensures|requires)\b.*$", here[0], re.M))

order, waiting, types = [], collections.deque(sorted(reached_by(clauses, imports, aliases))), set()
seen = set(waiting)
while waiting:
    kind, place, name = waiting.popleft()
    if kind == "type":
        types.add((place, name))
        continue
    order.append((place, name))
    spec = specs[place]
    lines, header, _ = spec.blocks[name]
    for it in sorted(reached_by(header + "\n" + "\n".join(lines), spec.imports, spec.aliases, spec)):
        if it not in seen:
            seen.add(it)
            waiting.append(it)

below = {}
for line in open("crates.txt", encoding="utf-8"):
    name, _, rest = line.partition("#")[0].partition(":")
    if name.strip():
        below[name.split()[0]] = rest.split()


def level(name):
    return 1 + max((level(it) for it in below[name] if it in below), default=0)


crates = collections.defaultdict(lambda: collections.defaultdict(list))
for file, name in order:
    crates[file.split("/")[1]][file].append(name)
total = files = 0
for crate in sorted(crates, key=lambda it: (-level(it), it)):
    sizes = {file: sum(specs[file].lines(it) for it in names) for file, names in crates[crate].items()}
    total += sum(sizes.values())
    files += len(sizes)
    shown = ", ".join(f"{file.split('/', 2)[2][6:-5] if '/specs/' in file else file.split('/', 2)[2][:-5]} {size}" for file, size in sizes.items())
    print(f"{crate}: {sum(sizes.values())} ({shown})")
    if verbose:
        for file, names in crates[crate].items():
            for name in names:
                print(f"    {file}: {name} {specs[file].lines(name)}")
print(f"{len(order)} definitions in {files} files of {len(crates)} crates, {total} lines; beside them {len(types)} types of the code")
PY
