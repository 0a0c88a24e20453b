#!/usr/bin/env bash
# What parsing the sources of a folder takes, beside javac and, where it is at hand, JavaParser.
#
#   bench/parsers.sh FOLDER [JAVAPARSER.jar]
#
# FOLDER as the module java.base of Debian's package openjdk-17-source, unpacked, and the archive as /usr/share/java/javaparser-core.jar of
# its package libjavaparser-java. The files of the folder that end in .java, module-info.java left out, are parsed by bench/corpus.sh, and
# three times in one process by javac's parser and by JavaParser. It prints the milliseconds of processor time of each, of all threads: the first time
# is from a cold start, the last is warm; and the ratios to this parser's. The JDK is the one on the path.
set -euo pipefail
folder=$(cd "$1" && pwd)
archive=${2:-}
here=$(cd "$(dirname "$0")" && pwd)
scratch=$(mktemp -d)
trap 'rm -rf "$scratch"' EXIT
find "$folder" -name '*.java' ! -name module-info.java | LC_ALL=C sort > "$scratch/list"

cat > "$scratch/Timed.java" <<'PROGRAM'
import com.sun.management.OperatingSystemMXBean;
import java.lang.management.ManagementFactory;
import java.nio.file.Files;
import java.nio.file.Path;
import java.util.List;

// Parses the files of a list three times, and prints the time of each.
abstract class Timed {
    // How many of the files have a tree.
    abstract int parse(List<Path> paths) throws Exception;

    void run(String name, String list) throws Exception {
        List<Path> paths = Files.readAllLines(Path.of(list)).stream().map(Path::of).toList();
        var system = (OperatingSystemMXBean) ManagementFactory.getOperatingSystemMXBean();
        for (int time = 1; time <= 3; time++) {
            // What the start of the machine takes belongs to the cold time.
            long start = time == 1 ? 0 : system.getProcessCpuTime();
            int trees = parse(paths);
            System.out.printf("%s time %d: %d trees, %d ms%n", name, time, trees, (system.getProcessCpuTime() - start) / 1_000_000);
        }
    }
}
PROGRAM
cat > "$scratch/Javac.java" <<'PROGRAM'
import com.sun.source.util.JavacTask;
import java.nio.file.Path;
import java.util.List;
import javax.tools.JavaCompiler;
import javax.tools.ToolProvider;

class Javac extends Timed {
    int parse(List<Path> paths) throws Exception {
        JavaCompiler compiler = ToolProvider.getSystemJavaCompiler();
        int trees = 0;
        try (var files = compiler.getStandardFileManager(null, null, null)) {
            var task = (JavacTask) compiler.getTask(null, files, diagnostic -> {}, List.of("-proc:none"), null,
                files.getJavaFileObjectsFromPaths(paths));
            for (var unit : task.parse()) {
                trees++;
            }
        }
        return trees;
    }

    public static void main(String[] args) throws Exception {
        new Javac().run("javac", args[0]);
    }
}
PROGRAM
cat > "$scratch/JavaParsers.java" <<'PROGRAM'
import com.github.javaparser.JavaParser;
import com.github.javaparser.ParserConfiguration;
import java.nio.file.Path;
import java.util.List;

class JavaParsers extends Timed {
    int parse(List<Path> paths) throws Exception {
        var configuration = new ParserConfiguration().setLanguageLevel(ParserConfiguration.LanguageLevel.BLEEDING_EDGE);
        int trees = 0;
        for (Path path : paths) {
            if (new JavaParser(configuration).parse(path).isSuccessful()) {
                trees++;
            }
        }
        return trees;
    }

    public static void main(String[] args) throws Exception {
        new JavaParsers().run("JavaParser", args[0]);
    }
}
PROGRAM
{
    "$here/corpus.sh" "$folder"
    cd "$scratch"
    javac -version 2>&1
    javac -d . Timed.java Javac.java
    java -cp . Javac list
    if [ -n "$archive" ]; then
        javac -cp "$archive" -d . Timed.java JavaParsers.java
        java -cp ".:$archive" JavaParsers list
    fi
} | tee "$scratch/printed"
python3 - "$scratch/printed" <<'PYTHON'
import re, sys
text = open(sys.argv[1]).read()
ours = int(re.search(r'tokens, (\d+) ms', text).group(1))
for name, time, took in re.findall(r'(javac|JavaParser) time (\d): \d+ trees, (\d+) ms', text):
    if time in '13':
        print('%s, %s: %.2f of what this parser takes' % (name, 'cold' if time == '1' else 'warm', int(took) / ours))
PYTHON
