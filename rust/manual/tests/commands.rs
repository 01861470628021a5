//! Every command in the documents, run as a reader would run it: it succeeds, and prints what the document shows.
//!
//! A `console` block has commands, `$ ` before each and `> ` before its further lines, and below each what it prints.
//! A `gate` block has commands that the gate runs. Blocks of other kinds have none, and there is no code outside of
//! blocks but words in a sentence, so that no command goes untried.

use std::process::Command;
use std::sync::{Mutex, PoisonError};

use manual::page::{Block, Page};
use manual::process::run;
use manual::scratch::Scratch;
use manual::{files, EXAMPLES, FORMATS, README, RUST};

/// Some commands start cargo, and two of them would wait for each other's builds.
static ONE_AT_A_TIME: Mutex<()> = Mutex::new(());

/// Lines of `gate` blocks that the gate does not run: the benchmarks take minutes, and have no answer to compare.
const NOT_IN_THE_GATE: [&str; 3] = [
    "cargo run --release --offline -p bench",
    "cargo run --release --offline -p bench membership",
    "bench/beside/run",
];

/// A command of a `console` block, and what it should print.
struct Shown {
    line: usize,
    command: String,
    output: String,
}

/// The commands of a block, in order.
fn shown(block: &Block) -> Result<Vec<Shown>, String> {
    let mut found: Vec<Shown> = Vec::new();
    for (line, words) in (block.line + 1..).zip(&block.lines) {
        if let Some(command) = words.strip_prefix("$ ") {
            found.push(Shown { line, command: command.to_string(), output: String::new() });
            continue;
        }
        let last = found.last_mut().ok_or_else(|| format!("{line}: no command stands above"))?;
        match words.strip_prefix("> ") {
            Some(rest) if last.output.is_empty() => last.command += &format!("\n{rest}"),
            _ => last.output += &format!("{words}\n"),
        }
    }
    if found.is_empty() {
        return Err(format!("{}: the block has no command", block.line));
    }
    Ok(found)
}

/// Runs a command, and says what is wrong with its end or its output.
fn tried(shown: &Shown, scratch: &Scratch) -> Result<(), String> {
    let mut bash = Command::new("bash");
    bash.args(["-euo", "pipefail", "-c", &shown.command]).current_dir(scratch.path());
    let output = run(&mut bash, b"");
    let found = String::from_utf8_lossy(&output.stdout);
    if output.status.success() && found == shown.output {
        return Ok(());
    }
    let Shown { line, command, output: expected } = shown;
    let (status, told) = (output.status, String::from_utf8_lossy(&output.stderr));
    Err(format!(
        "{line}: {command}\nended with {status}\nfound:\n{found}\nexpected:\n{expected}\nstandard error:\n{told}"
    ))
}

/// Runs the commands of all `console` blocks one after the other; each may use what those before it wrote.
fn run_all(page: &Page) -> Result<(), String> {
    let scratch = Scratch::with_links(&page.name.replace('/', "-"));
    for (block, _) in page.of_kind("console") {
        for shown in shown(block)? {
            tried(&shown, &scratch)?;
        }
    }
    Ok(())
}

/// The commands of a line of a script, without what a shell puts between them.
fn commands(line: &str) -> Vec<String> {
    let line = line.replace("2>&1", "").replace("&&", ";");
    let parts = line.split(['(', ')', ';', '|']).map(|part| part.trim().to_string());
    parts.filter(|part| !part.is_empty()).collect()
}

/// Whether the gate runs all that a line says.
fn in_the_gate(gate: &str, line: &str) -> bool {
    let asked = commands(line);
    let has = |line: &str| commands(line).windows(asked.len()).any(|part| part == asked);
    let mut run = gate.lines().filter(|line| !line.trim_start().starts_with('#'));
    line == ".ci/run" || (!asked.is_empty() && run.any(has))
}

/// The commands of a `gate` block, with the numbers of their lines; a `#` starts a comment.
fn gate_lines(block: &Block) -> Vec<(usize, &str)> {
    let before_comment = |line| str::split(line, '#').next().unwrap_or_default().trim();
    let lines = (block.line + 1..).zip(block.lines.iter().map(|line| before_comment(line)));
    lines.filter(|(_, line)| !line.is_empty()).collect()
}

/// What is wrong with the `gate` blocks.
fn gate_faults(page: &Page, gate: &str) -> Vec<String> {
    let mut faults = Vec::new();
    for (block, _) in page.of_kind("gate") {
        let lines = gate_lines(block);
        if lines.is_empty() {
            faults.push(format!("{}: the block has no command", block.line));
        }
        for (number, line) in lines {
            if !in_the_gate(gate, line) && !NOT_IN_THE_GATE.contains(&line) {
                faults.push(format!("{number}: the gate does not run `{line}`"));
            }
        }
    }
    faults
}

/// Blocks and lines in which a command could hide.
fn hidden(page: &Page) -> Vec<String> {
    let mut faults = Vec::new();
    for block in &page.blocks {
        let (number, info) = (block.line, &block.info);
        match info.split(' ').collect::<Vec<&str>>()[..] {
            ["console" | "gate"] => continue,
            ["text" | "c" | "rust"] | ["bytes" | "cells", _] => {}
            _ => {
                faults.push(format!("{number}: no test knows a block of the kind `{info}`"));
                continue;
            }
        }
        if block.lines.iter().any(|line| line.starts_with("$ ")) {
            faults.push(format!("{number}: a block with a command must be of the kind `console`"));
        }
    }
    for (number, line) in &page.prose {
        let indented = line.starts_with("    ") || line.starts_with('\t');
        let other = ["```", "~~~", "<pre", "<code"].iter().any(|mark| line.contains(mark));
        if (indented && !line.trim().is_empty()) || other {
            faults.push(format!("{number}: code outside of a fenced block: `{line}`"));
        }
    }
    faults
}

/// Commands in the middle of a sentence that no block of the document has.
fn in_sentences(page: &Page) -> Vec<String> {
    let blocks = page.of_kind("console").chain(page.of_kind("gate"));
    let tried: Vec<&String> = blocks.flat_map(|(block, _)| &block.lines).collect();
    let mut faults = Vec::new();
    for (number, line) in &page.prose {
        for words in line.split('`').skip(1).step_by(2) {
            let is_command = words.starts_with("cargo ") || words.starts_with("target/bin/");
            if is_command && !tried.iter().any(|line| line.contains(words)) {
                faults.push(format!("{number}: no block has the command `{words}`"));
            }
        }
    }
    faults
}

/// Tries a document that must have so many `console` blocks or more; all that is wrong stands with its line.
fn try_page(name: &str, least: usize) {
    let _guard = ONE_AT_A_TIME.lock().unwrap_or_else(PoisonError::into_inner);
    let page = Page::read(name);
    let mut faults = hidden(&page);
    faults.extend(in_sentences(&page));
    faults.extend(gate_faults(&page, &files::text(".ci/run")));
    let consoles = page.of_kind("console").count();
    if consoles < least {
        faults.push(format!("1: there are {consoles} console blocks, and {least} should be there"));
    }
    faults.extend(run_all(&page).err());
    let faults: Vec<String> = faults.iter().map(|fault| format!("{name}:{fault}")).collect();
    assert!(faults.is_empty(), "\n{}\n", faults.join("\n"));
}

#[test]
fn commands_of_the_readme() {
    try_page(README, 1);
}

#[test]
fn commands_of_the_examples() {
    try_page(EXAMPLES, 1);
}

#[test]
fn commands_of_the_formats() {
    try_page(FORMATS, 1);
}

#[test]
fn commands_of_the_rust_crates() {
    try_page(RUST, 0);
}

#[test]
fn what_the_gate_leaves_out_stands_in_a_document() {
    let pages = [README, EXAMPLES, FORMATS, RUST].map(Page::read);
    let lines: Vec<&str> = pages
        .iter()
        .flat_map(|page| page.of_kind("gate"))
        .flat_map(|(block, _)| gate_lines(block))
        .map(|(_, line)| line)
        .collect();
    for line in NOT_IN_THE_GATE {
        assert!(lines.contains(&line), "no document has `{line}`");
    }
}

/// A page made of a text.
fn page(text: &str) -> Page {
    Page::parse("page", text).unwrap_or_else(|fault| panic!("{fault}"))
}

#[test]
fn a_command_that_hides_is_found() {
    for (text, line) in [
        ("```\nls\n```\n", "1: no test knows"),
        ("\n```sh\nls\n```\n", "2: no test knows"),
        ("```console x\n$ ls\n```\n", "1: no test knows"),
        ("```bytes\n0  00  x\n```\n", "1: no test knows"),
        ("\n\n~~~text\nx\n$ ls\n~~~\n", "3: a block with a command"),
        ("a\n\n    ls\n", "3: code outside"),
        ("a\n\tls\n", "2: code outside"),
        ("- ```sh\n  ls\n", "1: code outside"),
        ("<pre>ls</pre>\n", "1: code outside"),
    ] {
        let faults = hidden(&page(text));
        assert!(faults.len() == 1 && faults[0].starts_with(line), "{text}{faults:?}");
    }
    assert_eq!(hidden(&page("a\n  b\n```text\n    c\n```\n")), [""; 0]);
}

#[test]
fn a_command_in_a_sentence_is_found() {
    let block = "```console\n$ cd rust && cargo run --quiet\na\n```\n";
    assert_eq!(in_sentences(&page(&format!("{block}`cargo run` or `cargo`, in `target/bin`\n"))), [""; 0]);
    let faults = in_sentences(&page(&format!("Say `a`, then `cargo test`.\n{block}")));
    assert_eq!(faults, ["1: no block has the command `cargo test`"]);
}

#[test]
fn what_the_gate_does_not_run_is_found() {
    let gate = "# one\n(cd there && two --three) 2>&1 | four\nfive\n";
    let found = |line: &str| gate_faults(&page(&format!("```gate\n{line}\n```\n")), gate);
    for line in [".ci/run  # all", "two --three", "cd there && two --three", "four", "five\n# six"] {
        assert_eq!(found(line), [""; 0]);
    }
    for line in
        ["one", "two", "--three", "two --three --six", "four\nsix", "cd there && five", ".ci/run now", "()"]
    {
        assert_eq!(found(line).len(), 1, "{line}");
    }
    assert_eq!(found("# nothing"), ["1: the block has no command"]);
}

#[test]
fn what_a_command_prints_is_compared_to_the_byte() {
    let scratch = Scratch::new("compared");
    let found = |text: &str| {
        let page = page(&format!("```console\n{text}\n```\n"));
        let commands = shown(&page.blocks[0])?;
        commands.iter().try_for_each(|command| tried(command, &scratch))
    };
    for text in ["$ echo a\na", "$ echo b > b\n$ cat b\nb", "$ echo 'c\n> d'\nc\nd", "$ echo e >&2", "$ true"]
    {
        assert_eq!(found(text), Ok(()));
    }
    for text in
        ["$ echo a", "$ echo a\nb", "$ echo a\na\n", "$ printf a\na", "$ false", "$ false | true", "a"]
    {
        assert!(found(text).is_err(), "{text}");
    }
}
