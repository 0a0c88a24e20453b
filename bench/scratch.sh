# Read in by the scripts of this folder: a scratch repository with copies of some crates and a program that measures them.
#
# After it, $here is the top of this checkout and $scratch a folder that goes when the script ends.
here=$(cd "$(dirname "${BASH_SOURCE[0]}")/.." && pwd)
scratch=$(mktemp -d)
trap 'rm -rf "$scratch"' EXIT

# scratch_repository PROGRAM 'LIBRARY..' CRATE..
# Copies the crates with their proofs, which are made again unless this checkout has the libraries that `rt lib` made of the same text, and makes a
# folder for the program, $bench, which uses the libraries. The script writes the program's src/main.rt.
scratch_repository() {
    local program=$1 libraries=$2 crate part
    shift 2
    for crate in "$@"; do
        mkdir -p "$scratch/crates/$crate"
        for part in src specs proofs; do
            if [ -d "$here/crates/$crate/$part" ]; then cp -r "$here/crates/$crate/$part" "$scratch/crates/$crate/"; fi
        done
        # (its stamp tells what text it was made of, and `rt` takes it for that text alone)
        if [ -d "$here/crates/$crate/out/rlib" ]; then
            mkdir "$scratch/crates/$crate/out"
            cp -r "$here/crates/$crate/out/rlib" "$scratch/crates/$crate/out/"
        fi
        grep "^$crate:" "$here/crates.txt" >> "$scratch/crates.txt"
    done
    echo "$program: $libraries" >> "$scratch/crates.txt"
    bench=$scratch/crates/$program
    mkdir -p "$bench/src" "$bench/specs" "$bench/proofs"
    : > "$bench/specs/Lib.antt"
    : > "$bench/proofs/Lib.antt"
}

# build_unproved PROGRAM
# Builds the program in $bench without proofs, as out/PROGRAM, in some minutes: `rt try` makes one module of the sources of all crates and hands
# it to its toolchain's compiler. So it runs here as a copy in a folder of links to the kit, in which that compiler compiles the module for use.
build_unproved() {
    local program=$1 kit file
    kit=$(dirname "$(rt doc)")
    mkdir -p "$scratch/kit/bin" "$scratch/kit/toolchain/bin" "$bench/out"
    for file in "$kit"/* "$kit"/bin/* "$kit"/toolchain/* "$kit"/toolchain/bin/*; do
        [ -e "$scratch/kit${file#"$kit"}" ] || ln -s "$file" "$scratch/kit${file#"$kit"}"
    done
    rm -f "$scratch/kit/bin/rt" "$scratch/kit/bin/rtlib.py" "$scratch/kit/toolchain/bin/clang"
    cp "$kit/bin/rt" "$kit/bin/rtlib.py" "$scratch/kit/bin/"
    cat > "$scratch/kit/toolchain/bin/clang" <<TXT
#!/bin/sh
# Compiles the second module, which is meant for the address sanitizer, for use and without it, and then fails, so that nothing is tried.
case " \$* " in *" -fsanitize=address "*) ;; *) exec '$kit/toolchain/bin/clang' "\$@" ;; esac
words=''
for word in "\$@"; do
    case \$word in
        -fsanitize=address) continue ;;
        -O0) word=-O1 ;;
        module.o) word='$scratch/$program.o' ;;
        --sysroot=*) word='--sysroot=$kit/toolchain' ;;
    esac
    words="\$words '\$word'"
done
eval "'$kit/toolchain/bin/clang' \$words"
exit 1
TXT
    chmod +x "$scratch/kit/toolchain/bin/clang"
    (cd "$bench" && "$scratch/kit/bin/rt" try -- build) > "$scratch/log" 2>&1 < /dev/null || true
    [ -s "$scratch/$program.o" ] || { tail -n 40 "$scratch/log"; exit 1; }
    "$kit/bin/rattle-link" --target x86_64-unknown-linux-gnu --toolchain "$kit/toolchain" -o "$bench/out/$program" "$scratch/$program.o" \
        "$kit/c/libos_c.a" "$kit/c/liblibc_c.a" > "$scratch/log" 2>&1 || { tail -n 40 "$scratch/log"; exit 1; }
}

# with_lower_crates LIBRARY..
# Prints the libraries with the crates that they stand on, lowest first.
with_lower_crates() {
    python3 - "$here/crates.txt" "$@" <<'PYTHON'
import sys
uses = {}
for line in open(sys.argv[1]):
    name, _, rest = line.split('#')[0].partition(':')
    if rest or name.strip():
        uses[name.strip()] = rest.split()
order = []
def put(name):
    if name in uses and name not in order:
        for below in uses[name]:
            put(below)
        order.append(name)
for name in sys.argv[2:]:
    put(name)
print(' '.join(order))
PYTHON
}

# text_of_members
# Prints the part of a program that makes the text of a Java class of so many members.
text_of_members() {
    cat <<'PROGRAM'
const MEMBER: &str = "    /** A member. */ private static final int FIELD = 0x1F + (a) * \"text\".length(), other[] = { 1, 2L, 3.0f };
    @Override public <T extends Comparable<T>> int method(final int first, String... rest) throws E {
        for (int i = 0, n = ((first)); i < n; i++) { if (x.y.z == this.w) { call(i, (n)); } else { continue; } }
        try (var r = open(); s) { switch (first) { case 1: break; default: throw new E() { int inner; }; } } catch (E | F e) { }
        return first > 0 ? rest.length : list.stream().map(v -> v + 1).mapToInt(Integer::intValue).sum();
    }
";

fn text_of(alloc: Global, members: u32) -> Result<String, AllocError> {
    let mut text = String::from_str(alloc, "package a.b;\nclass A {\n")?;
    for _ in 0..members {
        text.push_str(MEMBER)?;
    }
    text.push_str("}\n")?;
    Ok(text)
}
PROGRAM
    echo
}
