//! The example in C and the two programs under valgrind: it is silent, and what they print is what they print without.

use std::fs;
use std::path::Path;
use std::process::Command;

use manual::files;
use manual::process::{printed_on, under_valgrind};
use manual::scratch::Scratch;

/// Stops unless a program prints the same with and without valgrind, and tells nothing on standard error; answers
/// what it printed.
fn clean(program: &Path, input: &[u8]) -> String {
    let printed = printed_on(&mut Command::new(program), input);
    assert_eq!(printed_on(&mut under_valgrind(program), input), printed);
    printed
}

/// An example's bytes.
fn example(name: &str) -> Vec<u8> {
    files::bytes(&format!("examples/{name}"))
}

#[test]
fn the_example_in_c() {
    let scratch = Scratch::new("example");
    let program = scratch.path().join("example");
    let mut gcc = Command::new("gcc");
    gcc.args(["-std=c11", "-Wall", "-Wextra", "-Werror", "-Iinclude", "examples/example.c"]);
    gcc.arg(files::library()).arg("-o").arg(&program).current_dir(files::root());
    assert_eq!(printed_on(&mut gcc, b""), "");
    assert!(clean(&program, b"").ends_with("pair(a=7,a=7)\n"));
}

/// Inputs that both programs refuse: empty, the longest, one byte longer, and sets that are damaged.
fn refused() -> [Vec<u8>; 6] {
    let damaged = |at: usize, byte: u8| {
        let mut set = example("agreed.set");
        set[at] = byte;
        set
    };
    [vec![], vec![0; 32_768], vec![0; 32_769], damaged(0, 255), damaged(14, 255), damaged(577, 0)]
}

/// Stops unless a program refuses those with these numbers.
fn refuses(program: &Path, numbers: [u8; 6]) {
    for (input, number) in refused().iter().zip(numbers) {
        assert_eq!(clean(program, input), format!("refused {number}\n"));
    }
}

/// The names of all sets of the examples.
fn sets() -> Vec<String> {
    let directory = fs::read_dir(files::root().join("examples")).expect("the examples can be listed");
    let names = directory.map(|entry| entry.expect("an example").file_name().into_string().expect("a name"));
    let sets: Vec<String> = names.filter(|name| name.ends_with(".set")).collect();
    assert!(sets.len() >= 3, "{sets:?}");
    sets
}

#[test]
fn the_sample_program() {
    let program = files::program("sample");
    refuses(&program, [1, 2, 69, 2, 3, 6]);
    for name in sets() {
        let printed = clean(&program, &example(&name));
        assert!(printed == "dead\n" || printed.starts_with("alive "), "{name}: {printed}");
    }
}

#[test]
fn the_judging_program() {
    let program = files::program("judge");
    refuses(&program, [1, 1, 69, 2, 3, 6]);
    for name in sets() {
        assert_eq!(clean(&program, &example(&name)), "refused 63 at 0\n", "{name} without a text");
    }
    for (set, text, expected) in [
        ("e.set", b"s0(s1=7,s1=7)".to_vec(), "yes\n"),
        ("e.set", b"s0(s1=7,s1=8)".to_vec(), "no\n"),
        ("e.set", b"s0(s1=7,s1".to_vec(), "refused 63 at 10\n"),
        ("pairs.set", b"s1(s0(s3=1,s3=1),s1(s0(s3=2,s3=2),s2))".to_vec(), "yes\n"),
        ("pairs.set", b"s1(s0(s3=1,s3=1),s1(s0(s3=2,s3=3),s2))".to_vec(), "no\n"),
        ("dead.set", example("export.term"), "no\n"),
        ("agreed.set", example("export.term"), "yes\n"),
        ("agreed.set", example("export-queue.term"), "no\n"),
        ("agreed.set", example("export-swapped.term"), "no\n"),
    ] {
        let input = [example(set), text].concat();
        assert_eq!(clean(&program, &input), expected, "{set}");
    }
}
