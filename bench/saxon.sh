#!/usr/bin/env bash
# What Saxon takes for the expressions of bench/xeval.sh over the same trees of chains, as XML.
#
#   bench/saxon.sh [SAXON.jar]      /usr/share/java/Saxon-HE.jar of Debian's package libsaxonhe-java, where no other is said
#
# It makes trees of a quarter, a half and a whole million nodes, each a root with chains of four below it (two classes, a block, a variable), lets
# Saxon build them, and evaluates each expression, compiled once, at the document: a row has the expression, the nodes, and the nanoseconds of the
# thread's processor time for each node, of the first evaluation and of the best of the ten that follow. The JDK is the one on the path.
set -euo pipefail
archive=${1:-/usr/share/java/Saxon-HE.jar}
scratch=$(mktemp -d)
trap 'rm -rf "$scratch"' EXIT
cat > "$scratch/Evaluated.java" <<'PROGRAM'
import java.io.StringReader;
import java.lang.management.ManagementFactory;
import javax.xml.transform.stream.StreamSource;
import net.sf.saxon.s9api.Processor;
import net.sf.saxon.s9api.XPathExecutable;
import net.sf.saxon.s9api.XPathSelector;
import net.sf.saxon.s9api.XdmNode;

class Evaluated {
    static final String CHAIN = "<ClassDeclaration><ClassDeclaration><Block><VariableAccess Name=\"x\"/></Block></ClassDeclaration></ClassDeclaration>";

    static final String[] EXPRESSIONS = {
        "//Block",
        "//VariableAccess[@Name = 'x']",
        "//Block[ancestor::ClassDeclaration]",
        "//ClassDeclaration[.//Block]",
        "count(//*)",
        "/CompilationUnit/ClassDeclaration/ClassDeclaration/Block/VariableAccess",
        "for $c in //ClassDeclaration return if ($c/Block) then $c else ()",
        "//* intersect //Block",
        "//* except //Block",
    };

    // The thread's processor time for an evaluation, in nanoseconds.
    static long time(XPathExecutable compiled, XdmNode tree) throws Exception {
        var threads = ManagementFactory.getThreadMXBean();
        XPathSelector selector = compiled.load();
        selector.setContextItem(tree);
        long start = threads.getCurrentThreadCpuTime();
        selector.evaluate();
        return threads.getCurrentThreadCpuTime() - start;
    }

    public static void main(String[] args) throws Exception {
        Processor processor = new Processor(false);
        for (int chains : new int[] {62_500, 125_000, 250_000}) {
            String text = "<CompilationUnit>" + CHAIN.repeat(chains) + "</CompilationUnit>";
            XdmNode tree = processor.newDocumentBuilder().build(new StreamSource(new StringReader(text)));
            int nodes = 4 * chains + 1;
            for (String expression : EXPRESSIONS) {
                XPathExecutable compiled = processor.newXPathCompiler().compile(expression);
                long first = time(compiled, tree), best = Long.MAX_VALUE;
                for (int again = 0; again < 10; again++) {
                    best = Math.min(best, time(compiled, tree));
                }
                System.out.printf("%s: %d nodes, first %d, best %d ns a node%n", expression, nodes, first / nodes, best / nodes);
            }
        }
    }
}
PROGRAM
cd "$scratch"
javac -cp "$archive" -d . Evaluated.java
java -Xmx2g -cp ".:$archive" Evaluated
