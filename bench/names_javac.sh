#!/usr/bin/env bash
# What javac says of the names of types that bench/names.sh looked up.
#
#   bench/names_javac.sh FOLDER FILE      the folder and the file that bench/names.sh was given
#
# It has javac attribute all files of the folder as the module java.base, and compares the class that each name means to it with the class
# that was found at the same place. It prints how many are the same, and how many of each kind are not: a name that is a variable to javac, a
# local class (javac counts those of one name in a class, and here the name has the number of a node), another class. Behind that
# come all names that are another class, or a class to javac and not known here. It wants JDK 17, of the version whose sources FOLDER has.
set -euo pipefail
folder=$(cd "$1" && pwd)
names=$(readlink -f "$2")
scratch=$(mktemp -d)
trap 'rm -rf "$scratch"' EXIT
cat > "$scratch/Names.java" <<'PROGRAM'
import com.sun.source.tree.*;
import com.sun.source.util.*;
import java.io.PrintWriter;
import java.nio.charset.StandardCharsets;
import java.nio.file.*;
import java.util.*;
import javax.lang.model.element.*;
import javax.tools.*;

/** Prints each dotted name of the files of a folder: its file, its offset in UTF-16 units, and the class that it means, or the kind of what else. */
public class Names {
    static String dotted(Tree tree) {
        if (tree instanceof IdentifierTree name) return name.getName().toString();
        if (tree instanceof MemberSelectTree member) {
            String before = dotted(member.getExpression());
            return before == null ? null : before + "." + member.getIdentifier();
        }
        if (tree instanceof ParameterizedTypeTree type) return dotted(type.getType());
        if (tree instanceof AnnotatedTypeTree type) return dotted(type.getUnderlyingType());
        return null;
    }

    public static void main(String[] args) throws Exception {
        Path folder = Path.of(args[0]);
        List<Path> files;
        try (var found = Files.walk(folder)) {
            files = found.filter(file -> file.toString().endsWith(".java")).sorted().toList();
        }
        JavaCompiler compiler = ToolProvider.getSystemJavaCompiler();
        var manager = compiler.getStandardFileManager(null, null, StandardCharsets.UTF_8);
        var options = List.of("-proc:none", "-implicit:none", "-XDignore.symbol.file", "--patch-module", "java.base=" + folder);
        JavacTask task = (JavacTask) compiler.getTask(null, manager, null, options, null, manager.getJavaFileObjectsFromPaths(files));
        List<CompilationUnitTree> units = new ArrayList<>();
        for (CompilationUnitTree unit : task.parse()) units.add(unit);
        task.analyze();
        Trees trees = Trees.instance(task);
        PrintWriter out = new PrintWriter(System.out, false, StandardCharsets.UTF_8);
        for (CompilationUnitTree unit : units) {
            Path file = folder.relativize(Path.of(unit.getSourceFile().toUri()));
            new TreePathScanner<Void, Void>() {
                void say(Tree tree) {
                    String name = dotted(tree);
                    long start = trees.getSourcePositions().getStartPosition(unit, tree);
                    if (name == null || start < 0) return;
                    Element meant = trees.getElement(getCurrentPath());
                    out.println(file + " " + start + " " + name + " " + (meant instanceof TypeElement type ? task.getElements().getBinaryName(type)
                        : meant == null ? "=?" : "=" + meant.getKind()));
                }
                @Override public Void visitIdentifier(IdentifierTree tree, Void nothing) { say(tree); return super.visitIdentifier(tree, nothing); }
                @Override public Void visitMemberSelect(MemberSelectTree tree, Void nothing) { say(tree); return super.visitMemberSelect(tree, nothing); }
            }.scan(unit, null);
        }
        out.flush();
    }
}
PROGRAM
javac -d "$scratch" "$scratch/Names.java"
java -Xmx3g -cp "$scratch" Names "$folder" > "$scratch/javac"
PYTHONDONTWRITEBYTECODE=1 PYTHONPATH=$(cd "$(dirname "$0")" && pwd) python3 - "$folder" "$scratch/javac" "$names" <<'PYTHON'
import collections, re, sys
from translated import translated
folder, javac, ours = sys.argv[1:]
meant, tables = {}, {}
for line in open(javac, encoding='utf-8'):
    path, start, name, what = line.rstrip('\n').split(' ')
    if path not in tables:
        tables[path] = translated(f'{folder}/{path}')
    at = tables[path]
    meant[path, str(at[int(start)]) if at else start, name] = what

kinds, others = collections.Counter(), []
for line in open(ours, encoding='utf-8'):
    word, path, start, name, found = line.rstrip('\n').split(' ')
    what = meant.get((path, start, name), '=nothing')
    if what == found or (word, what) == ('parameter', '=TYPE_PARAMETER'):
        kinds[f'{word}: the same'] += 1
    elif what.startswith('='):
        kinds[f'{word}: {what[1:]} to javac'] += 1
    elif re.sub(r'\$\$\d+', '$', found) == re.sub(r'\$\d+\w*', '$', what):
        kinds[f'{word}: a local class'] += 1
    else:
        kinds[f'{word}: another class to javac'] += 1
        others.append(f'{word} {path} {start} {name} {found} {what}')
for kind, count in kinds.most_common():
    print(f'{count} {kind}')
print('\n'.join(others))
PYTHON
