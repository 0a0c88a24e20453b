#!/usr/bin/env bash
# Rules that ask for types, over real sources and the classes of the JDK.
#
#   bench/run_types.sh FOLDER [N]     FOLDER as the module java.base of a JDK's sources, unpacked
#
# It runs the ten rules of examples/rulesets/types.xml over every 8th, every 4th, every second and all of every Nth file of the folder (all of them
# without N), with a class folder, into which `jimage extract` puts the classes of java.base, and without one. Beside these it runs
# one rule that looks at the root alone over the same files, which takes what reading and parsing take. A row has the number of files, their bytes, seconds
# of processor time, the peak of resident memory, and the lines of the report by rule; with the class folder also the finds, which are the
# class files that were looked for, by strace in a run of its own. Time should grow with the files, and finds more slowly, since each
# class is looked for once. The last rows are of a class with one chain of calls, `b.append("x").append("x")..`, and a rule that asks for the type of
# each of them: time should grow with the chain and not with its square.
#
# The program is that of ./pmd: the proved one where it was built, else the one without proofs, and the first row says which. It wants jimage of the JDK
# whose sources the folder has, first in PATH, and strace.
set -euo pipefail
folder=$(cd "$1" && pwd)
nth=${2:-1}
. "$(dirname "$0")/scratch.sh"
home=$(dirname "$(dirname "$(readlink -f "$(command -v jimage)")")")
jimage extract --dir "$scratch/jdk" --include 'regex:/java.base/.*class' "$home/lib/modules"

# The first call builds the program where there is none, or an old one.
(cd "$here" && ./pmd check -d examples/types -R examples/rulesets/types.xml >/dev/null 2>"$scratch/said") || [ $? -eq 4 ]
program=$here/crates/pmd/out/pmd
if grep -q 'not proved' "$scratch/said"; then program=$program-unproved; fi

python3 - "$program" "$here/examples/rulesets/types.xml" "$scratch" "$folder" "$nth" <<'PYTHON'
import collections, os, re, resource, subprocess, sys
program, types, scratch, folder, nth = sys.argv[1:]
root = os.path.join(scratch, 'root.xml')
text = open(types).read()
head = text[:text.index('<rule ')]
rule = re.search(r'<rule .*?</rule>', text, re.S).group()
calls = os.path.join(scratch, 'calls.xml')


def put_rule(path, query):
    with open(path, 'w') as out:
        out.write(head + re.sub(r'<!\[CDATA\[.*?\]\]>', query, rule, flags=re.S) + '\n</ruleset>\n')


put_rule(root, '/CompilationUnit[empty(node())]')
put_rule(calls, "//MethodCall[pmd-java:typeIs('q.Q')]")
paths = sorted(os.path.join(at, name) for at, _, names in os.walk(folder)
               for name in names if name.endswith('.java') and name != 'module-info.java')[::int(nth)]
classes = ['--aux-classpath', os.path.join(scratch, 'jdk', 'java.base')]


def words_of(sources, rules, more):
    return ['check', '-d', sources, '-R', rules] + more


def measured(words):
    """The report, the seconds and the KiB of a run, in a process of its own, since the greatest of all children counts."""
    read, write = os.pipe()
    if os.fork() == 0:
        done = subprocess.run([program] + words, stdout=subprocess.PIPE, stderr=subprocess.STDOUT)
        used = resource.getrusage(resource.RUSAGE_CHILDREN)
        with os.fdopen(write, 'wb') as out:
            out.write(b'%.2f %d\n' % (used.ru_utime + used.ru_stime, used.ru_maxrss) + done.stdout)
        os._exit(0)
    os.close(write)
    with os.fdopen(read, 'rb') as told:
        first, _, report = told.read().partition(b'\n')
    os.wait()
    seconds, most = first.split()
    return report.decode(), float(seconds), int(most)


def finds(words):
    """How many class files a run looks for."""
    trace = os.path.join(scratch, 'trace')
    subprocess.run(['strace', '-f', '-e', 'trace=open,openat,stat,lstat,newfstatat,statx', '-o', trace, program] + words, stdout=subprocess.DEVNULL)
    return len(set(re.findall(r'"([^"]*\.class)"', open(trace, errors='replace').read())))


print('the program: %s' % os.path.basename(program))
for step in (8, 4, 2, 1):
    chosen = paths[::step]
    sources = os.path.join(scratch, 'sources%d' % step)
    for path in chosen:
        copy = os.path.join(sources, os.path.relpath(path, folder))
        os.makedirs(os.path.dirname(copy), exist_ok=True)
        os.symlink(path, copy)
    for name, rules, more in (('one rule at the root', root, []), ('ten rules, no class folder', types, []), ('ten rules and the JDK', types, classes)):
        report, seconds, most = measured(words_of(sources, rules, more))
        found = collections.Counter(re.findall(r'^[^\t]*:\d+:\t(\w+):\t', report, re.M))
        errors = len(re.findall(r'^[^\t]*\t-\t', report, re.M))
        looked = ', %d finds' % finds(words_of(sources, rules, more)) if more else ''
        print('%d files, %d bytes, %s: %.2f s, %d KiB%s, %d findings, %d errors: %s'
              % (len(chosen), sum(map(os.path.getsize, chosen)), name, seconds, most, looked, sum(found.values()), errors, ', '.join('%s %d' % pair for pair in sorted(found.items()))), flush=True)
for count in (25, 50, 100):
    chain = os.path.join(scratch, 'Chain.java')
    with open(chain, 'w') as out:
        out.write('class Chain { void f(StringBuilder b) { b%s; } }\n' % ('.append("x")' * count))
    report, seconds, most = measured(words_of(chain, calls, classes))
    print('a chain of %d calls, a rule that asks for the type of each: %.2f s, %d KiB' % (count, seconds, most), flush=True)
PYTHON
