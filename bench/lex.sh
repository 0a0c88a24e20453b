#!/usr/bin/env bash
# Time and memory of reading and scanning Java sources: one large file, and many small ones, at three sizes each.
#
# It makes a scratch repository of the libraries and of a small program, proves them (which takes minutes where nothing of them
# is kept on this machine), and runs the program. A row has the files, their bytes and tokens, the milliseconds of processor
# time of reading the text (Source::read) and of scanning it (Lexer::next_token, best of five walks over all tokens), the tokens
# and bytes of a second of scanning, how many tokens are comments and the sum of all ends, and the peak of resident memory. The
# walk looks at the kind and the end of each token, as whoever uses tokens does: what nobody looks at need not be computed. Twice
# the text should take twice the time. That scanning allocates nothing for a token needs no measure: next_token takes no
# allocator, and nothing in Rattle allocates without one.
set -euo pipefail
. "$(dirname "$0")/scratch.sh"
scratch_repository lex_bench 'pj_lex pj_source' pj_base pj_patterns pj_tree pj_source pj_lex
cat > "$bench/src/main.rt" <<'PROGRAM'
// Rows of time and memory.
#![tactic(auto)]

use pj_lex::{Lexer, TokenKind};
use pj_source::Source;
use std::alloc::Global;
use std::time::CpuClock;
use std::{env, fs, io};

// What a walk over tokens saw: how many there are, how many of them are comments, and the sum of their ends.
#[derive(Clone, Copy)]
struct Seen {
    tokens: u64,
    comments: u64,
    ends: u64,
}

const NOTHING: Seen = Seen {
    tokens: 0,
    comments: 0,
    ends: 0,
};

// What was read and scanned. Times are in microseconds.
#[derive(Clone, Copy)]
struct Sums {
    files: u64,
    bytes: u64,
    seen: Seen,
    reading: u64,
    scanning: u64,
}

fn now(rt: &HostRuntime) -> io::Result<u64> {
    Ok((rt.process_cpu_time()?.as_micros() % (1 << 60)) as u64)
}

// The tokens of a source, up to its end or a fault.
fn scanned(source: &Source) -> Seen {
    let mut seen = NOTHING;
    let mut lexer = Lexer::over(source.text());
    for _ in 0..1_000_000_000u64 {
        match lexer.next_token() {
            Some(Ok(token)) => {
                seen.tokens = seen.tokens.saturating_add(1);
                seen.ends = seen.ends.wrapping_add(token.span.to as u64);
                if token.kind == TokenKind::Comment {
                    seen.comments = seen.comments.saturating_add(1);
                }
            }
            _ => return seen,
        }
    }
    seen
}

fn source_of(alloc: Global, bytes: &[u8]) -> Option<Source> {
    if bytes.len() > 4_000_000_000 {
        return None;
    }
    Source::read(alloc, bytes).ok()
}

fn best_of_five(rt: &HostRuntime, source: &Source) -> io::Result<(Seen, u64)> {
    let mut best = u64::MAX;
    let mut seen = NOTHING;
    for _ in 0..5 {
        let start = now(rt)?;
        seen = scanned(source);
        best = best.min(now(rt)?.saturating_sub(start));
    }
    Ok((seen, best))
}

fn add_file(rt: &HostRuntime, path: &str, sums: Sums) -> io::Result<Sums> {
    let bytes = fs::read(rt, path)?;
    let start = now(rt)?;
    let Some(source) = source_of(rt.alloc(), &bytes) else {
        return Ok(sums);
    };
    let reading = now(rt)?.saturating_sub(start);
    let (seen, scanning) = best_of_five(rt, &source)?;
    Ok(Sums {
        files: sums.files.saturating_add(1),
        bytes: sums.bytes.saturating_add(bytes.len() as u64),
        seen: Seen {
            tokens: sums.seen.tokens.saturating_add(seen.tokens),
            comments: sums.seen.comments.saturating_add(seen.comments),
            ends: sums.seen.ends.wrapping_add(seen.ends),
        },
        reading: sums.reading.saturating_add(reading),
        scanning: sums.scanning.saturating_add(scanning),
    })
}

fn peak(rt: &HostRuntime) -> io::Result<String> {
    let status = fs::read_to_string(rt, "/proc/self/status")?;
    for line in status.as_str().lines() {
        if line.starts_with("VmHWM:") {
            return Ok(String::from_str(rt.alloc(), line)?);
        }
    }
    Ok(String::new(rt.alloc()))
}

// In millions for each second: counts for each microsecond.
fn rate(count: u64, micros: u64) -> u64 {
    count / micros.max(1)
}

fn row(rt: &HostRuntime, list: &str) -> io::Result<()> {
    let mut sums = Sums {
        files: 0,
        bytes: 0,
        seen: NOTHING,
        reading: 0,
        scanning: 0,
    };
    let names = fs::read_to_string(rt, list)?;
    for name in names.as_str().lines() {
        sums = add_file(rt, name, sums)?;
    }
    let reading = sums.reading / 1000;
    let scanning = sums.scanning / 1000;
    let tokens = rate(sums.seen.tokens.saturating_mul(10), sums.scanning);
    let bytes = rate(sums.bytes, sums.scanning);
    let peak = peak(rt)?;
    let (files, all_bytes, all_tokens) = (sums.files, sums.bytes, sums.seen.tokens);
    let (comments, ends) = (sums.seen.comments, sums.seen.ends);
    println!(rt; "{files} files, {all_bytes} bytes, {all_tokens} tokens ({comments} comments, ends {ends}), reading {reading} ms, scanning {scanning} ms, {tokens} tenths of a million tokens/s, {bytes} MB/s, {peak}")
}

fn main(rt: HostRuntime) -> io::Result<()> {
    for word in env::args(&rt)?.skip(1) {
        row(&rt, word.as_str())?;
    }
    Ok(())
}
PROGRAM
python3 - "$scratch" <<'PY'
import os, sys
scratch = sys.argv[1]
# A class with names, signs, numbers, strings, comments and a text block, in about two kilobytes.
def member(i):
    return f'''
    /** The {i}th member, of no use. */
    private static final Map<String, List<Integer>> table{i} = new HashMap<>(0x1F + {i} * 3);
    public int method{i}(final int count, String... names) throws IOException {{
        int total = 0; // so far
        for (int k = 0; k < count; k++) {{ total += (k << 2) ^ {i}L ; if (total >= 1_000_000) {{ return total % 7; }} }}
        String text = "a string with \\t escapes and \\"quotes\\"" + 'c' + names[0].length() + 1.5e3;
        String block = """
            some text
              in a block\\n""";
        return switch (total) {{ case 1, 2 -> text.length(); default -> block != null ? total >>> 1 : -1; }};
    }}
'''
def unit(name, size):
    head, tail = f"package p.q;\nimport java.util.*;\npublic class {name} {{\n", "}\n"
    parts, length, i = [head], len(head) + len(tail), 0
    while length < size:
        part = member(i); parts.append(part); length += len(part); i += 1
    return "".join(parts) + tail
def write(series, names):
    with open(f"{scratch}/{series}", "w") as out:
        out.write("".join(n + "\n" for n in names))
for megabytes in (2, 4, 8):
    path = f"{scratch}/Large{megabytes}.java"
    open(path, "w").write(unit(f"Large{megabytes}", megabytes * 1_000_000))
    write(f"large{megabytes}", [path])
os.mkdir(f"{scratch}/small")
small = []
for i in range(2000):
    path = f"{scratch}/small/C{i}.java"
    open(path, "w").write(unit(f"C{i}", 4000)); small.append(path)
for count in (500, 1000, 2000):
    write(f"small{count}", small[:count])
PY
cd "$bench"
for series in large2 large4 large8 small500 small1000 small2000; do
    rt run -- "$scratch/$series" | grep ' files, '
done
