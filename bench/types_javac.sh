#!/usr/bin/env bash
# What javac says of the types of the expressions that bench/types.sh typed.
#
#   bench/types_javac.sh FOLDER FILE      the folder and the file that bench/types.sh was given
#
# It has javac attribute all files of the folder as the module java.base, and compares the type of each expression and of each variable that is declared
# with the type that was found at the same place: erased, and with type arguments, where a wildcard and what javac captures of it is its upper bound. It
# prints the time that javac took, how many types are the same, how many are not known here and why, and how many differ, by the cause that a
# rule of this script tells. A type that differs or is not known since that of a part of it does counts apart. Then the same of the methods and
# constructors that are chosen. Behind that come up to 15 of each cause. It wants JDK 17, of the version whose sources FOLDER has.
set -euo pipefail
folder=$(cd "$1" && pwd)
nodes=$(readlink -f "$2")
scratch=$(mktemp -d)
trap 'rm -rf "$scratch"' EXIT
cat > "$scratch/Types.java" <<'PROGRAM'
import com.sun.source.tree.*;
import com.sun.source.util.*;
import com.sun.tools.javac.tree.JCTree;
import java.io.PrintWriter;
import java.lang.management.ManagementFactory;
import java.nio.charset.StandardCharsets;
import java.nio.file.*;
import java.util.*;
import java.util.stream.Collectors;
import javax.lang.model.element.*;
import javax.lang.model.type.*;
import javax.tools.*;

/** Prints each expression and each variable of some files of a module: its file, where it stands in UTF-16 units, and its type, erased and whole. */
public class Types {
    static JavacTask task;

    static String name(TypeElement type) {
        return task.getElements().getBinaryName(type).toString();
    }

    /** A type with type arguments: wildcards and captured ones are their upper bounds, and a variable is its name. */
    static String whole(TypeMirror type, int depth) {
        if (depth > 8) return "..";
        switch (type.getKind()) {
            case DECLARED: {
                DeclaredType declared = (DeclaredType) type;
                String name = name((TypeElement) declared.asElement());
                if (declared.getTypeArguments().isEmpty()) return name;
                return name + declared.getTypeArguments().stream().map(a -> whole(a, depth + 1)).collect(Collectors.joining(",", "<", ">"));
            }
            case ARRAY: return whole(((ArrayType) type).getComponentType(), depth) + "[]";
            case TYPEVAR: {
                TypeVariable variable = (TypeVariable) type;
                return variable.toString().startsWith("capture#") ? whole(variable.getUpperBound(), depth + 1) : variable.asElement().getSimpleName().toString();
            }
            case WILDCARD: {
                TypeMirror bound = ((WildcardType) type).getExtendsBound();
                return bound == null ? "java.lang.Object" : whole(bound, depth + 1);
            }
            case INTERSECTION: return ((IntersectionType) type).getBounds().stream().map(a -> whole(a, depth + 1)).collect(Collectors.joining("&"));
            case UNION: return ((UnionType) type).getAlternatives().stream().map(a -> whole(a, depth + 1)).collect(Collectors.joining("|"));
            case NULL: return "null";
            default: return type.getKind().toString().toLowerCase();
        }
    }

    static String erased(TypeMirror type) {
        switch (type.getKind()) {
            case DECLARED: case ARRAY: case TYPEVAR: case WILDCARD: case INTERSECTION: case UNION: return whole(task.getTypes().erasure(type), 0);
            default: return whole(type, 0);
        }
    }

    static boolean isTyped(TypeMirror type) {
        switch (type.getKind()) {
            case NONE: case PACKAGE: case EXECUTABLE: case MODULE: case OTHER: return false;
            default: return true;
        }
    }

    static long seconds(long start) {
        return (ManagementFactory.getThreadMXBean().getCurrentThreadCpuTime() - start) / 1_000_000;
    }

    public static void main(String[] args) throws Exception {
        Path folder = Path.of(args[0]);
        Set<String> wanted = new HashSet<>(Files.readAllLines(Path.of(args[1])));
        List<Path> files;
        try (var found = Files.walk(folder)) {
            files = found.filter(file -> file.toString().endsWith(".java")).sorted().toList();
        }
        JavaCompiler compiler = ToolProvider.getSystemJavaCompiler();
        var manager = compiler.getStandardFileManager(null, null, StandardCharsets.UTF_8);
        var options = List.of("-proc:none", "-implicit:none", "-XDignore.symbol.file", "-Xmaxerrs", "1000", "--patch-module", "java.base=" + folder);
        task = (JavacTask) compiler.getTask(null, manager, null, options, null, manager.getJavaFileObjectsFromPaths(files));
        List<CompilationUnitTree> units = new ArrayList<>();
        long start = ManagementFactory.getThreadMXBean().getCurrentThreadCpuTime();
        for (CompilationUnitTree unit : task.parse()) units.add(unit);
        long parsing = seconds(start);
        start = ManagementFactory.getThreadMXBean().getCurrentThreadCpuTime();
        task.analyze();
        System.err.println("javac: " + files.size() + " files, parsing " + parsing + " ms, attributing " + seconds(start) + " ms of the processor");
        Trees trees = Trees.instance(task);
        SourcePositions places = trees.getSourcePositions();
        PrintWriter out = new PrintWriter(System.out, false, StandardCharsets.UTF_8);
        for (CompilationUnitTree unit : units) {
            String file = folder.relativize(Path.of(unit.getSourceFile().toUri())).toString();
            if (!wanted.contains(file)) continue;
            new TreePathScanner<Void, Void>() {
                void say(String word, long from, long to, String kind, TypeMirror type) {
                    if (from < 0 || to < 0 || type == null || !isTyped(type)) return;
                    String erased = erased(type), whole = whole(type, 0);
                    out.println(word + " " + file + " " + from + " " + to + " " + kind + " " + erased + " " + (whole.equals(erased) ? "=" : whole));
                }
                /** The class type among the enclosing ones that inherits from a class. */
                DeclaredType around(TypeElement owner) {
                    for (TreePath path = getCurrentPath(); path != null; path = path.getParentPath()) {
                        if (!(path.getLeaf() instanceof ClassTree)) continue;
                        Element element = trees.getElement(path);
                        if (element != null && isBelow(element.asType(), owner)) return (DeclaredType) element.asType();
                    }
                    return null;
                }

                /** The type of what stands before the dot of a call, or of the class around. */
                DeclaredType receiver(Tree tree, TreePath path, ExecutableElement method) {
                    TypeElement owner = (TypeElement) method.getEnclosingElement();
                    if (!(tree instanceof MethodInvocationTree call) || method.getKind() == ElementKind.CONSTRUCTOR || method.getModifiers().contains(Modifier.STATIC)) return null;
                    if (!(call.getMethodSelect() instanceof MemberSelectTree select)) return around(owner);
                    TypeMirror before = trees.getTypeMirror(new TreePath(new TreePath(path, select), select.getExpression()));
                    while (before instanceof TypeVariable variable) before = variable.getUpperBound();
                    if (before instanceof IntersectionType types) {
                        for (TypeMirror bound : types.getBounds()) if (isBelow(bound, owner)) return bound instanceof DeclaredType found ? found : null;
                    }
                    return before instanceof DeclaredType found && isBelow(found, owner) ? found : null;
                }

                boolean isBelow(TypeMirror type, TypeElement owner) {
                    return task.getTypes().isSubtype(task.getTypes().erasure(type), task.getTypes().erasure(owner.asType()));
                }

                void sayCall(Tree tree, TreePath path) {
                    if (!(trees.getElement(path) instanceof ExecutableElement method)) return;
                    String owner = name((TypeElement) method.getEnclosingElement());
                    DeclaredType receiver = receiver(tree, path, method);
                    ExecutableType type = (ExecutableType) (receiver == null ? method.asType() : task.getTypes().asMemberOf(receiver, method));
                    String parameters = type.getParameterTypes().stream().map(p -> erased(p)).collect(Collectors.joining(",", "(", ")"));
                    boolean isPolymorphic = method.getAnnotationMirrors().stream().anyMatch(a -> a.toString().contains("PolymorphicSignature"));
                    String sort = isPolymorphic ? "polymorphic" : method.getTypeParameters().isEmpty() ? "plain" : "generic";
                    out.println("call " + file + " " + places.getStartPosition(unit, tree) + " " + places.getEndPosition(unit, tree) + " " + sort + " " + owner + parameters);
                }
                /** The kind of a tree, and of a name also the kind of what it means. */
                String sort(Tree tree, TreePath path) {
                    if (!(tree instanceof IdentifierTree) && !(tree instanceof MemberSelectTree)) return tree.getKind().toString();
                    Element element = trees.getElement(path);
                    return tree.getKind() + (element == null ? "" : element.getKind().isField() ? ":field" : element.getKind().isClass() || element.getKind().isInterface() ? ":class" : ":other");
                }

                @Override public Void scan(Tree tree, Void nothing) {
                    if (tree == null) return null;
                    TreePath last = getCurrentPath();
                    if (tree instanceof ExpressionTree && !(tree instanceof ParenthesizedTree)) {
                        TreePath path = new TreePath(last, tree);
                        say("node", places.getStartPosition(unit, tree), places.getEndPosition(unit, tree), sort(tree, path), trees.getTypeMirror(path));
                        if (tree instanceof MethodInvocationTree || tree instanceof NewClassTree) sayCall(tree, path);
                    } else if (tree instanceof VariableTree variable) {
                        long from = ((JCTree.JCVariableDecl) variable).pos;
                        TreePath path = new TreePath(last, tree);
                        Element element = trees.getElement(path);
                        if (element != null) say("name", from, from, "VARIABLE", element.asType());
                    }
                    return super.scan(tree, nothing);
                }
            }.scan(unit, null);
        }
        out.flush();
    }
}
PROGRAM
exports='jdk.compiler/com.sun.tools.javac.tree=ALL-UNNAMED'
javac --add-exports "$exports" -d "$scratch" "$scratch/Types.java"
sed -n 's/^node \([^ ]*\) .*/\1/p' "$nodes" | LC_ALL=C sort -u > "$scratch/wanted"
java -Xmx4g --add-exports "$exports" -cp "$scratch" Types "$folder" "$scratch/wanted" > "$scratch/javac"
PYTHONDONTWRITEBYTECODE=1 PYTHONPATH=$(cd "$(dirname "$0")" && pwd) python3 - "$folder" "$scratch/javac" "$nodes" <<'PYTHON'
import collections, itertools, re, sys
from translated import translated
folder, javac, ours = sys.argv[1:]

KINDS = {'VariableAccess': {'IDENTIFIER'}, 'FieldAccess': {'MEMBER_SELECT'}, 'TypeExpression': {'IDENTIFIER', 'MEMBER_SELECT'}, 'MethodCall': {'METHOD_INVOCATION'},
         'ConstructorCall': {'NEW_CLASS'}, 'ArrayAllocation': {'NEW_ARRAY'}, 'LambdaExpression': {'LAMBDA_EXPRESSION'}, 'MethodReference': {'MEMBER_REFERENCE'}}


def lines_by_file(path, words):
    with open(path, encoding='utf-8') as file:
        for name, lines in itertools.groupby((line.rstrip('\n').split(' ') for line in file if line.split(' ', 1)[0] in words), lambda parts: parts[1]):
            yield name, lines


def our_name(text):
    return re.sub(r'\$\$\d+', '$', text)


def their_name(text):
    return re.sub(r'\$\d+\w*', '$', text)


class Node:
    def __init__(self, parts):
        self.n, self.start, self.end = int(parts[2]), int(parts[3]), int(parts[4])
        self.kind, self.name, self.erased, self.whole, self.cause, self.receiver = parts[5:11]
        self.erased, self.whole, self.inner = our_name(self.erased), our_name(self.whole), []


def verdict(node, meant):
    if node.erased == '!':
        return 'wants memory'
    if meant is None:
        return 'unknown, and javac has none' if node.erased == '?' else 'javac has none'
    if node.erased == '?':
        return 'unknown'
    if node.whole == meant[2]:
        return 'the same'
    return 'erased' if node.erased == meant[1] else 'different'


def root_of(node, nodes):
    """Where a type that is not known comes from, and whether it comes from another node."""
    first, steps = node, 0
    while node.cause.isdigit() and int(node.cause) in nodes and steps < 100000:
        node, steps = nodes[int(node.cause)], steps + 1
    return node, node is not first


def is_other(node):
    return node.verdict in ('different', 'unknown', 'erased')


OF_OBJECT = {'getClass', 'hashCode', 'equals', 'toString', 'notify', 'notifyAll', 'wait', 'clone', 'finalize'}


def unknown_cause(root, nodes):
    """Why the type of a node is not known that is the first of those that have it."""
    receiver = nodes.get(int(root.receiver)) if root.receiver.isdigit() else None
    if root.cause == 'no-method':
        if receiver is not None and receiver.erased.endswith('[]'):
            return 'a method of an array'
        if receiver is not None and receiver.kind == 'TypeExpression' and receiver.verdict == 'different':
            return 'a constant that is read as a class'
        if root.name in OF_OBJECT:
            return 'a method of java.lang.Object'
        if root.name in ('values', 'valueOf'):
            return 'a method that an enum has without writing it'
        if receiver is not None and is_other(receiver):
            return 'no method is chosen, where the receiver differs'
        return 'no method of the name'
    if root.cause == 'not-applicable' and root.name in ('values', 'valueOf'):
        return 'a method that an enum has without writing it'
    if root.cause in ('not-applicable', 'tie') and any(is_other(inner) for inner in root.inner):
        return 'no method is chosen, where an argument differs or is not known'
    if root.kind == 'TypeExpression' and root.meant and root.meant[0].endswith(':field'):
        return 'a constant that is read as a class'
    return f'{root.kind} {root.cause}'


def cause_of(node, nodes, names, calls, their_calls):
    """Why a type differs from that of javac."""
    meant = node.meant
    receiver = nodes.get(int(node.receiver)) if node.receiver.isdigit() else None
    if node.kind == 'TypeExpression':
        return 'a constant that is read as a class' if meant[0].endswith(':field') else 'by itself'
    if node.kind == 'ThisExpression':
        return '`this` without type arguments'
    if node.kind == 'ConstructorCall':
        if meant[1].endswith('$'):
            return 'an anonymous class'
        return 'a diamond' if '<>' in node.text.partition('(')[0].replace(' ', '') else 'by itself'
    if node.kind == 'CastExpression' and '&' in meant[2]:
        return 'the first type of an intersection'
    if node.kind == 'VariableAccess' and names.get(node.name):
        return 'as a variable'
    if node.kind == 'MethodCall':
        here, (sort, there) = calls.get((node.start, node.end)), their_calls.get((node.start, node.end), ('?', '?'))
        if node.name == 'getClass' and there.endswith('()'):
            return 'getClass'
        if here != there:
            return 'another method' if receiver is None or not is_other(receiver) else 'as its receiver'
        if sort == 'polymorphic':
            return 'a signature polymorphic method'
        if sort == 'generic':
            return 'a type parameter of the method'
    if receiver is not None and is_other(receiver):
        return 'by its receiver' if receiver.verdict == 'erased' else 'as its receiver'
    if any(is_other(inner) for inner in node.inner):
        return 'as an operand'
    if node.kind == 'ConditionalExpression':
        return 'a conditional expression'
    if node.kind == 'VariableId':
        return '`var` of an expression that differs'
    if 'java.lang.Object' in node.whole or '...' in meant[2] or '..' in meant[2]:
        return 'a wildcard or what javac captures of it'
    return 'by itself'


tables = collections.defaultdict(collections.Counter)
samples = collections.defaultdict(list)


def note(table, cause, text):
    tables[table][cause] += 1
    key = table, cause
    if len(samples[key]) < 400:
        samples[key].append(text)


def text_of(path):
    """The text of a file with its Unicode escapes translated, as bytes; offsets in it are good enough for a look."""
    with open(f'{folder}/{path}', encoding='utf-8', newline='') as file:
        text = file.read()
    return re.sub(r'\\u+([0-9a-fA-F]{4})', lambda escape: chr(int(escape[1], 16)), text).encode('utf-8', 'replace')


def compare(path, our_lines, their_lines):
    at = translated(f'{folder}/{path}')
    place = (lambda text: at[int(text)]) if at else int
    whole = text_of(path)
    nodes, calls, invocations, exprs, variables, their_calls, last_calls = {}, {}, set(), collections.defaultdict(list), {}, {}, {}
    for parts in our_lines:
        if parts[0] == 'node':
            nodes[int(parts[2])] = Node(parts)
        else:
            calls[int(parts[2]), int(parts[3])] = our_name(parts[5])
            if parts[4] == 'ExplicitConstructorInvocation':
                invocations.add((int(parts[2]), int(parts[3])))
    for parts in their_lines:
        if parts[0] == 'call':
            if int(parts[2]) >= 0 and int(parts[3]) >= 0:
                start, end, call = place(parts[2]), place(parts[3]), (parts[4], their_name(parts[5]))
                their_calls[start, end] = call
                last_calls[start] = max(last_calls.get(start, (0, call)), (end, call))
            continue
        erased = their_name(parts[5])
        meant = parts[4], erased, erased if parts[6] == '=' else their_name(parts[6])
        if parts[0] == 'name':
            # the first one: javac gives the parameters of a constructor that it makes the place of the class
            variables.setdefault(place(parts[2]), meant)
        else:
            exprs[place(parts[2]), place(parts[3])].append(meant)
    stack, names = [], {}
    for n in sorted(nodes):
        node = nodes[n]
        node.text = whole[node.start:node.end].decode('utf-8', 'replace')
        while stack and not (stack[-1].start <= node.start and node.end <= stack[-1].end):
            stack.pop()
        if stack:
            stack[-1].inner.append(node)
        stack.append(node)
        if node.kind == 'VariableId':
            node.meant = variables.get(node.start)
        else:
            found = exprs.get((node.start, node.end), [])
            of_kind = [meant for meant in found if meant[0].partition(':')[0] in KINDS.get(node.kind, {meant[0].partition(':')[0]})]
            node.meant = of_kind[0] if of_kind else None
        node.verdict = verdict(node, node.meant)
        if node.kind == 'VariableId' and node.verdict in ('different', 'erased'):
            names[node.name] = node
    for n in sorted(nodes):
        node = nodes[n]
        tables['all'][node.verdict] += 1
        text = f'{path} {node.start} {node.kind} {node.name} {node.erased} {node.whole} {node.meant}'
        if node.verdict.startswith('unknown'):
            root, follows = root_of(node, nodes)
            note('unknown', unknown_cause(root, nodes) + (', and what is made of it' if follows else ''), text + ' root ' + root.name + ' ' + (nodes[int(root.receiver)].erased if root.receiver.isdigit() and int(root.receiver) in nodes else '-'))
        elif node.verdict == 'javac has none':
            note('none', node.kind, text)
        elif node.verdict in ('different', 'erased'):
            note(node.verdict, (node.kind, cause_of(node, nodes, names, calls, their_calls)), text + f' {calls.get((node.start, node.end))} {their_calls.get((node.start, node.end))}')
    for key, here in calls.items():
        # a call of another constructor is a statement, and its node ends behind the semicolon
        sort, there = last_calls.get(key[0], (0, ('', None)))[1] if key in invocations else their_calls.get(key, ('', None))
        note('calls', call_cause(here, there), f'{path} {key} {here} {there} {" ".join(whole[key[0]:key[1]].decode("utf-8", "replace").split())[:60]}')


def call_cause(here, there):
    """What differs in the method that is chosen for a call."""
    if there is None:
        return 'javac has none'
    owner, _, parameters = there.partition('(')
    if here == there:
        return 'the same'
    if owner.endswith('$'):
        return 'an anonymous class, which here is its superclass or interface' if here != '?' or parameters == ')' else 'none: an anonymous class'
    if here == '?' and owner == 'java.lang.Object':
        return 'none: a member of java.lang.Object'
    if here == '?' and owner == 'Array':
        return 'none: a member of an array'
    if here == '?':
        return 'none: the receiver or an argument is not known, or what is chosen is not written'
    if here.partition('(')[2] == parameters:
        return 'the same parameters, of another class'
    return 'another'


def main():
    theirs = lines_by_file(javac, {'node', 'name', 'call'})
    name, their_lines = next(theirs)
    for path, lines in lines_by_file(ours, {'node', 'call'}):
        while name != path:
            name, their_lines = next(theirs)
        compare(path, list(lines), list(their_lines))
    for table, counts in tables.items():
        print(f'== {table}: {sum(counts.values())}')
        for cause, count in counts.most_common():
            print(f'{count} {cause}')
    for (table, cause), texts in samples.items():
        if cause == 'the same':
            continue
        print(f'-- {table} {cause}')
        step = max(1, len(texts) // 12)
        print('\n'.join(texts[::step][:15]))


main()
PYTHON
