#!/usr/bin/env bash
# Whether other readers take what the program writes as a report.
#
# It makes a scratch repository of the libraries and of a small program, proves them (which takes minutes where nothing of them
# is kept on this machine), and runs the program. The program makes 200 reports of texts with quotes, commas, line ends, control
# characters and characters of one to four bytes, and writes each in the three forms. Python makes the same reports, reads the
# CSV with its csv and the JSON with its json, and compares what these give with the rows. It also compares the bytes: of the CSV
# with what its csv writes of the rows, of the JSON with what its json writes of the values, and of the text with its own lines.
set -euo pipefail
. "$(dirname "$0")/scratch.sh"
scratch_repository report_readers 'anyhow pj_base pj_reports pj_names pj_tree' pj_base pj_names pj_tree pj_reports
cat > "$bench/src/main.rt" <<'PROGRAM'
// Reports of drawn rows, in the three forms.
#![tactic(auto)]

use pj_base::{Bytes, NoMemory, Text};
use pj_reports::{
    FileError, FileErrors, FileRows, Finding, Findings, PathRows, Reason, Report, csv_of, json_of,
    text_of,
};
use pj_names::{ConfigError, ConfigErrors, RuleRow, RuleRowList};
use pj_tree::Place;
use std::alloc::Global;
use std::io::{self, Write};

/// A word of 16.
fn word(number: u32) -> &'static str {
    match number {
        0 => "",
        1 => "a",
        2 => "Say \"no\", twice",
        3 => "\"",
        4 => ",",
        5 => "a\nb",
        6 => "a\r\n\tb",
        7 => "\u{0}\u{1}\u{8}\u{b}\u{c}\u{1f}\u{7f}",
        8 => "gr\u{f6}\u{df}er",
        9 => "\u{221e}\u{2028}",
        10 => "\u{1f600}\u{10ffff}",
        11 => "\\ / \\n </script>",
        12 => " trimmed? ",
        13 => "\u{feff}",
        14 => "null",
        _ => "'1'",
    }
}

/// Numbers that are drawn one after the other.
#[derive(Drop)]
struct Draw {
    state: u64,
}

impl Draw {
    /// A number below another one.
    fn below(&mut self, limit: u32) -> u32 {
        let state = self.state;
        self.state = state.wrapping_mul(6364136223846793005).wrapping_add(1442695040888963407);
        let drawn = (self.state >> 33) as u32;
        drawn.checked_rem(limit).unwrap_or(0)
    }

    fn text(&mut self, alloc: Global) -> Result<Text, NoMemory> {
        Text::from_str(alloc, word(self.below(16)))
    }

    fn place(&mut self) -> Place {
        let line = self.below(2000);
        let column = self.below(200);
        Place { line, column }
    }
}

fn reason(number: u32) -> Option<Reason> {
    match number {
        1 => Some(Reason::Annotation),
        2 => Some(Reason::Comment),
        3 => Some(Reason::Regex),
        4 => Some(Reason::XPath),
        _ => None,
    }
}

fn rules(alloc: Global, draw: &mut Draw) -> Result<RuleRowList, NoMemory> {
    let mut rows = RuleRowList::new(alloc);
    for _ in 0..draw.below(4) {
        let name = draw.text(alloc)?;
        let message = draw.text(alloc)?;
        let priority = draw.below(6) as u8;
        let rule_set = draw.text(alloc)?;
        rows.push(RuleRow { name, message, priority, rule_set })?;
    }
    Ok(rows)
}

fn findings(alloc: Global, draw: &mut Draw) -> Result<Findings, NoMemory> {
    let mut rows = Findings::new(alloc);
    for _ in 0..draw.below(4) {
        let rule = draw.below(4);
        let begin = draw.place();
        let end = draw.place();
        let reason = reason(draw.below(8));
        rows.push(Finding { rule, node: 0, begin, end, reason })?;
    }
    Ok(rows)
}

fn errors(alloc: Global, draw: &mut Draw) -> Result<FileErrors, NoMemory> {
    let mut rows = FileErrors::new(alloc);
    for _ in 0..draw.below(3) {
        let message = draw.text(alloc)?;
        rows.push(FileError { rule: None, message })?;
    }
    Ok(rows)
}

fn files(alloc: Global, draw: &mut Draw) -> Result<PathRows, NoMemory> {
    let mut rows = PathRows::new(alloc);
    for _ in 0..draw.below(5) {
        let path = draw.text(alloc)?;
        let package = draw.text(alloc)?;
        let findings = findings(alloc, draw)?;
        let errors = errors(alloc, draw)?;
        rows.push((path, FileRows { package, findings, errors }))?;
    }
    Ok(rows)
}

fn config_errors(alloc: Global, draw: &mut Draw) -> Result<ConfigErrors, NoMemory> {
    let mut rows = ConfigErrors::new(alloc);
    for _ in 0..draw.below(3) {
        let rule = draw.text(alloc)?;
        let message = draw.text(alloc)?;
        rows.push(ConfigError { rule, message })?;
    }
    Ok(rows)
}

fn report(alloc: Global, draw: &mut Draw) -> Result<Report, NoMemory> {
    let rules = rules(alloc, draw)?;
    let files = files(alloc, draw)?;
    let errors = config_errors(alloc, draw)?;
    Ok(Report { rules, files, errors })
}

/// Writes how many bytes there are, and the bytes.
fn put(rt: &HostRuntime, bytes: &Bytes) -> io::Result<()> {
    let count = bytes.as_slice().len();
    println!(rt; "{count}")?;
    rt.stdout().write_all(bytes.as_slice())
}

fn main(rt: HostRuntime) -> anyhow::Result<()> {
    let alloc = rt.alloc();
    let mut draw = Draw { state: 1 };
    println!(rt; "reports:")?;
    for _ in 0..200 {
        let report = report(alloc, &mut draw)?;
        put(&rt, &text_of(alloc, &report)?)?;
        put(&rt, &csv_of(alloc, &report)?)?;
        put(&rt, &json_of(alloc, &report)?)?;
    }
    Ok(())
}
PROGRAM
cat > "$scratch/readers.py" <<'READERS'
"""Reads the reports of a file, and compares them with their rows."""
import csv
import io
import json
import sys

WORDS = ["", "a", 'Say "no", twice', '"', ",", "a\nb", "a\r\n\tb", "\0\x01\x08\x0b\x0c\x1f\x7f", "größer", "∞\u2028",
    "\U0001f600\U0010ffff", "\\ / \\n </script>", " trimmed? ", "\ufeff", "null", "'1'"]
REASONS = {1: "annotation", 2: "comment", 3: "regex", 4: "xpath"}
HEADER = ["Problem", "Package", "File", "Priority", "Line", "Description", "Rule set", "Rule"]
state = 1


def below(limit):
    global state
    state = (state * 6364136223846793005 + 1442695040888963407) % 2**64
    return (state >> 33) % limit


def word():
    return WORDS[below(16)]


def finding():
    return (below(4), (below(2000), below(200)), (below(2000), below(200)), REASONS.get(below(8)))


def many(limit, make):
    return [make() for _ in range(below(limit))]


def report():
    rules = many(4, lambda: (word(), word(), below(6), word()))
    files = many(5, lambda: (word(), word(), many(4, finding), many(3, word)))
    return rules, files, many(3, lambda: (word(), word()))


def violation(rules, finding):
    number, (line, column), (end_line, end_column), reason = finding
    name, message, priority, rule_set = rules[number] if number < len(rules) else ("", "", 5, "")
    members = {"beginline": line, "begincolumn": column, "endline": end_line, "endcolumn": end_column,
        "description": message, "rule": name, "ruleset": rule_set, "priority": priority}
    return members | ({"suppressiontype": reason} if reason else {})


def wanted(rules, files, errors):
    """The lines of the text, the rows of the CSV and the value of the JSON."""
    lines, rows = [], [HEADER]
    value = {"formatVersion": 0, "files": [], "suppressedViolations": [], "processingErrors": [],
        "configurationErrors": [{"rule": rule, "message": message} for rule, message in errors]}
    for path, package, findings, messages in files:
        shown = [violation(rules, f) for f in findings if not f[3]]
        hidden = [violation(rules, f) for f in findings if f[3]]
        for v in shown:
            lines.append(f"{path}:{v['beginline']}:\t{v['rule']}:\t{v['description']}\n")
            rows.append([str(len(rows)), package, path, str(v["priority"]), str(v["beginline"]), v["description"], v["ruleset"], v["rule"]])
        for key, violations in (("files", shown), ("suppressedViolations", hidden)):
            if violations:
                value[key].append({"filename": path, "violations": violations})
        value["processingErrors"] += [{"filename": path, "message": m} for m in messages]
    lines += [f"{path}\t-\t{m}\n" for path, _, _, messages in files for m in messages]
    lines += [f"{rule}\t-\t{message}\n" for rule, message in errors]
    return "".join(lines), rows, value


def next_text(stream):
    return stream.read(int(stream.readline())).decode()


count = 0
with open(sys.argv[1], "rb") as stream:
    while stream.readline() != b"reports:\n":
        pass
    for _ in range(200):
        text, rows, value = wanted(*report())
        got_text, got_csv, got_json = next_text(stream), next_text(stream), next_text(stream)
        assert got_text == text, (got_text, text)
        assert list(csv.reader(io.StringIO(got_csv, newline=""), strict=True)) == rows, (got_csv, rows)
        assert json.loads(got_json) == value, (got_json, value)
        written = io.StringIO(newline="")
        csv.writer(written, quoting=csv.QUOTE_ALL, lineterminator="\n").writerows(rows)
        assert got_csv == written.getvalue(), (got_csv, rows)
        assert got_json == json.dumps(value, sort_keys=True, separators=(",", ":"), ensure_ascii=False) + "\n", got_json
        count += len(rows) - 1
print(f"200 reports with {count} findings that are shown: text, CSV and JSON are as Python reads and writes them")
READERS
cd "$bench"
rt run > "$scratch/reports"
python3 "$scratch/readers.py" "$scratch/reports"
