#!/usr/bin/env bash
# Time and peak memory of a run over one file against its size: classes with a comment in each, a rule //ClassBody, at 1/4, 1/2 and 1 MiB.
# Time and memory in proportion to the file show as ratios near 2.
set -eu
top=$(cd "$(dirname "$0")/.." && pwd)
folder=$(mktemp -d)
trap 'rm -rf "$folder"' EXIT
(cd "$top" && ./pmd check -d examples/shop -R examples/rules.xml >/dev/null) || [ $? -eq 4 ]
program=$top/crates/pmd/out/pmd
cat > "$folder/rules.xml" <<'XML'
<ruleset name="bodies">
  <rule name="Body" language="java" message="found" class="net.sourceforge.pmd.lang.rule.xpath.XPathRule">
    <properties><property name="xpath" value="//ClassBody"/></properties>
  </rule>
</ruleset>
XML

# A file of this many bytes: classes on a line each, and spaces to fill it.
make_file() {
    python3 - "$1" "$2" <<'PY'
import sys
size, path = int(sys.argv[1]), sys.argv[2]
line = "class Shape { /* a comment, of no use but to take some room */ }\n"
text = line * (size // len(line))
open(path, "w").write(text + " " * (size - len(text)))
PY
}

printf '%10s %10s %12s %10s\n' bytes seconds 'peak KiB' findings
for size in 262144 524288 1048576; do
    file=$folder/$size.java
    make_file "$size" "$file"
    python3 - "$program" "$file" <<'PY'
import os, resource, subprocess, sys, time
program, path = sys.argv[1:3]
best = None
for _ in range(5):
    start = time.perf_counter()
    done = subprocess.run([program, "check", "-d", os.path.basename(path), "-R", "rules.xml"], cwd=os.path.dirname(path), stdout=subprocess.PIPE)
    took = time.perf_counter() - start
    best = took if best is None else min(best, took)
    assert done.returncode == 4, done.returncode
peak = resource.getrusage(resource.RUSAGE_CHILDREN).ru_maxrss
print("%10d %10.3f %12d %10d" % (os.path.getsize(path), best, peak, done.stdout.count(b"\n")))
PY
done
