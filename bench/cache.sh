#!/usr/bin/env bash
# What a run with an analysis cache saves, over real sources and the classes of the JDK.
#
#   bench/cache.sh FOLDER [N]     FOLDER as the module java.base of a JDK's sources, unpacked
#
# It runs the rules of examples/rulesets/quality.xml and examples/rulesets/types.xml on one thread over every Nth file of the folder (all of
# them without N), with a class folder, into which `jimage extract` puts the classes of java.base, and `--cache`:
#
#   cold                   no cache stands there yet
#   warm                   nothing has changed
#   warm again             nothing has changed, with the cache that the warm run left
#   one file changed       a line of comment is put behind one of the files
#   one class changed      a class of the folder that about forty files ask for is replaced by bytes that are no class
#   a rule added           a ruleset of one more rule
#   without a cache        the same words without `--cache`: each report above has to be the one of this run, and the script says where it is not
#
# Beside them stand reading and sealing alone (`cat` of sources and cache, `sha256sum` of the cache), and a run of one rule that looks at the root, which is reading
# and parsing. A row has seconds of processor time, what part of the cold run's they are, the peak of resident memory, the bytes of the cache that is left, and the lines of the report.
#
# The program is that of ./pmd: the proved one where it was built, else the one without proofs, and the first row says which. It wants jimage of the JDK
# whose sources the folder has, first in PATH.
set -euo pipefail
folder=$(cd "$1" && pwd)
nth=${2:-1}
. "$(dirname "$0")/scratch.sh"
home=$(dirname "$(dirname "$(readlink -f "$(command -v jimage)")")")
jimage extract --dir "$scratch/jdk" --include 'regex:/java.base/.*class' "$home/lib/modules"

# The first call builds the program where there is none, or an old one.
(cd "$here" && ./pmd check -d examples/types -R examples/rulesets/types.xml >/dev/null 2>"$scratch/said") || [ $? -eq 4 ]
program=$here/crates/pmd/out/pmd
if grep -q 'not proved' "$scratch/said"; then program=$program-unproved; fi

python3 - "$program" "$here/examples/rulesets" "$scratch" "$folder" "$nth" <<'PYTHON'
import collections, os, re, resource, shutil, subprocess, sys
program, rulesets, scratch, folder, nth = sys.argv[1:]
quality, types = (os.path.join(rulesets, name + '.xml') for name in ('quality', 'types'))
text = open(types).read()
head, rule = text[:text.index('<rule ')], re.search(r'<rule .*?</rule>', text, re.S).group()


def put_rule(name, query):
    path = os.path.join(scratch, name + '.xml')
    with open(path, 'w') as out:
        out.write(re.sub(r'name="[^"]*"', 'name="%s"' % name, head, count=1) + re.sub(r'<!\[CDATA\[.*?\]\]>', query, rule, flags=re.S) + '\n</ruleset>\n')
    return path


root = put_rule('root', '/CompilationUnit[empty(node())]')
more = put_rule('more', '//SwitchStatement')
paths = sorted(os.path.join(at, name) for at, _, names in os.walk(folder)
               for name in names if name.endswith('.java') and name != 'module-info.java')[::int(nth)]
sources, cache = os.path.join(scratch, 'sources'), os.path.join(scratch, 'cache')
for path in paths:
    copy = os.path.join(sources, os.path.relpath(path, folder))
    os.makedirs(os.path.dirname(copy), exist_ok=True)
    shutil.copyfile(path, copy)
classes = os.path.join(scratch, 'jdk', 'java.base')


def measured(words):
    """The report, the status, the seconds and the KiB of a command, in a process of its own, since the greatest of all children counts."""
    read, write = os.pipe()
    if os.fork() == 0:
        done = subprocess.run(words, stdout=subprocess.PIPE, stderr=subprocess.PIPE)
        used = resource.getrusage(resource.RUSAGE_CHILDREN)
        sys.stderr.write(done.stderr.decode(errors='replace'))
        sys.stderr.flush()
        with os.fdopen(write, 'wb') as out:
            out.write(b'%d %.2f %d\n' % (done.returncode, used.ru_utime + used.ru_stime, used.ru_maxrss) + done.stdout)
        os._exit(0)
    os.close(write)
    with os.fdopen(read, 'rb') as told:
        first, _, report = told.read().partition(b'\n')
    os.wait()
    status, seconds, most = first.split()
    return report, int(status), float(seconds), int(most)


def words_of(rules, with_cache):
    return [program, 'check', '-d', sources, '-R', rules, '--aux-classpath', classes] + (['--cache', cache] if with_cache else [])


took = {}


def say(what, rules, with_cache=True):
    report, status, seconds, most = measured(words_of(rules, with_cache))
    took[what] = seconds
    part = ' (%.3f of cold)' % (seconds / took['cold']) if took.get('cold') else ''
    size = os.path.getsize(cache) if with_cache and os.path.exists(cache) else 0
    print('%s: %.2f s%s, %d KiB, a cache of %d bytes, %d lines, status %d' % (what, seconds, part, most, size, report.count(b'\n'), status), flush=True)
    return report


def same(what, report, rules):
    cold, _, _, _ = measured(words_of(rules, False))
    if report != cold:
        print('%s: NOT the report of a run without a cache' % what, flush=True)


both = quality + ',' + types
print('the program: %s; %d files, %d bytes' % (os.path.basename(program), len(paths), sum(map(os.path.getsize, paths))))
say('reading and parsing: one rule that looks at the root', root, False)
plain = say('without a cache', both, False)
for what in ('cold', 'warm', 'warm again'):
    if say(what, both) != plain:
        print('%s: NOT the report of a run without a cache' % what, flush=True)
listed = [os.path.join(at, name) for at, _, names in os.walk(sources) for name in names]
_, _, seconds, _ = measured(['cat'] + listed + [cache])
_, _, sealing, _ = measured(['sha256sum', cache])
print('reading sources and cache: %.2f s; sealing the cache: %.2f s; warm takes %.1f times both' % (seconds, sealing, took['warm again'] / max(seconds + sealing, 0.01)), flush=True)

changed = os.path.join(sources, os.path.relpath(paths[len(paths) // 2], folder))
with open(changed, 'a') as out:
    out.write('// changed\n')
same('one file changed', say('one file changed', both), both)


def files_by_class(data):
    """How many files of a cache of format 2 have a result that names each class (docs/cache.md has the format)."""
    at = 0

    def number(size=4):
        nonlocal at
        at += size
        return int.from_bytes(data[at - size:at], 'big')

    def run():
        nonlocal at
        size = number()
        at += size
        return data[at - size:at]

    def answer():
        name, case = run().decode(), number(1)
        if case == 1:
            number(2), run()
            for _ in range(2):
                for _ in range(number()):
                    number(2), run(), run()
        elif case == 2:
            fault = number(1)
            if fault == 1:
                number(1), number()
        return name

    def places():
        return [number() for _ in range(number())]

    def said():
        if number(1):
            run()
        else:
            for _ in range(number()):
                for _ in range(5):
                    number()
                number(1)

    at += 8
    number(), run()
    for _ in range(number()):
        run()
    names = [answer() for _ in range(number())]
    files = collections.Counter()
    for _ in range(number()):
        run(), run(), run()
        if number(1):
            run(), number()
            continue
        asked = set()
        for _ in range(number()):
            keys = places()
            asked.update(places())
            for _ in keys:
                said()
        files.update(names[place] for place in asked)
    if at != len(data) - 32:
        sys.exit('the cache does not end where its format says: this script reads it wrong')
    return files


# A class that about forty files ask for, among those of the folder.
asked = {name: count for name, count in files_by_class(open(cache, 'rb').read()).items() if os.path.exists(os.path.join(classes, name.replace('.', '/') + '.class'))}
name, count = min(asked.items(), key=lambda pair: (abs(pair[1] - 40), pair[0]))
best = os.path.join(classes, name.replace('.', '/') + '.class')
print('the class that changes: %s, which %d files ask for' % (name, count))
with open(best, 'wb') as out:
    out.write(b'\xca\xfe\xba\xbe')
same('one class changed', say('one class changed', both), both)

with_more = both + ',' + more
same('a rule added', say('a rule added', with_more), with_more)
say('warm with the rule', with_more)
PYTHON
