//! `./install`: what it copies can be used with pkg-config alone, also after it was moved; and where it cannot copy
//! all, it says why and copies nothing.

use std::fs;
use std::path::Path;
use std::process::{Command, Output};

use manual::files;
use manual::process::{printed, printed_on, run};
use manual::scratch::Scratch;

const COPIED: [&str; 5] =
    ["bin/judge", "bin/sample", "include/cidhomba.h", "lib/libcidhomba.a", "lib/pkgconfig/cidhomba.pc"];

/// The script, started in a directory.
fn install(directory: &Path) -> Command {
    let mut command = Command::new(files::root().join("install"));
    command.current_dir(directory);
    command
}

/// Installs under a name in an empty directory.
fn installed(name: &str) -> Scratch {
    let scratch = Scratch::new(name);
    assert_eq!(printed(install(scratch.path()).arg(scratch.path().join(name))), "");
    scratch
}

/// Runs a line of the shell that may ask pkg-config for what stands under a prefix, and for nothing else.
fn with_pkg_config(prefix: &Path, line: &str) -> String {
    let mut command = Command::new("sh");
    command.args(["-euc", line]).current_dir(prefix).env("PKG_CONFIG_LIBDIR", prefix.join("lib/pkgconfig"));
    printed(command.env_remove("PKG_CONFIG_PATH").env("EXAMPLE", files::root().join("examples/example.c")))
}

/// The example in C, compiled with what pkg-config says and nothing else, prints what it prints in the repository.
fn example_runs(prefix: &Path) {
    let expected = printed(&mut Command::new(files::root().join("examples/run-c")));
    assert!(expected.lines().count() > 9, "{expected}");
    // pkg-config puts a backslash before a space, which only a second reading by the shell takes away.
    let line = r#"eval "gcc \"\$EXAMPLE\" $(pkg-config --cflags --libs cidhomba) -o example"; ./example"#;
    assert_eq!(with_pkg_config(prefix, line), expected);
}

#[test]
fn what_is_installed_is_used_with_pkg_config_alone() {
    let scratch = installed("prefix");
    let prefix = scratch.path().join("prefix");
    assert_eq!(scratch.files(), COPIED.map(|file| format!("prefix/{file}")));
    assert_eq!(
        with_pkg_config(&prefix, "pkg-config --modversion cidhomba").trim(),
        env!("CARGO_PKG_VERSION")
    );
    example_runs(&prefix);
    // As README has it, where no name has a space.
    let line = r#"gcc "$EXAMPLE" $(pkg-config --cflags --libs cidhomba) -o again; cmp again example"#;
    assert_eq!(with_pkg_config(&prefix, line), "");
}

#[test]
fn what_is_installed_can_be_moved_and_may_have_a_space_in_its_name() {
    let scratch = installed("one place");
    example_runs(&scratch.path().join("one place"));
    fs::rename(scratch.path().join("one place"), scratch.path().join("another place")).expect("it is moved");
    example_runs(&scratch.path().join("another place"));
}

#[test]
fn the_installed_programs_answer() {
    let scratch = installed("programs");
    let program = |name: &str| Command::new(scratch.path().join("programs/bin").join(name));
    let example = |name: &str| files::bytes(&format!("examples/{name}"));
    let judged =
        |text: &str| printed_on(&mut program("judge"), &[example("agreed.set"), example(text)].concat());
    assert_eq!(judged("export.term"), "yes\n");
    assert_eq!(judged("export-queue.term"), "no\n");
    assert_eq!(printed_on(&mut program("sample"), &example("dead.set")), "dead\n");
    assert_eq!(printed_on(&mut program("sample"), &example("e.set")), "alive 2\ns0(s1,s1)\n");
}

#[test]
fn a_name_that_is_not_a_whole_path_counts_from_where_the_script_is_started() {
    let scratch = Scratch::new("relative");
    assert_eq!(printed(install(scratch.path()).arg("a/b")), "");
    assert_eq!(scratch.files(), COPIED.map(|file| format!("a/b/{file}")));
}

/// Stops unless a command failed with a message that has these words, and wrote nothing.
fn failed(output: &Output, scratch: &Scratch, words: &[&str]) {
    let told = String::from_utf8_lossy(&output.stderr);
    assert!(!output.status.success(), "{told}");
    assert!(output.stdout.is_empty(), "{}", String::from_utf8_lossy(&output.stdout));
    for word in words {
        assert!(told.contains(word), "there is no {word} in: {told}");
    }
    let left = fs::read_dir(scratch.path()).expect("the directory can be listed").count();
    assert_eq!(left, 0, "something was written");
}

#[test]
fn without_one_name_the_script_says_how_it_is_used() {
    let scratch = Scratch::new("usage");
    for names in [&[][..], &[""], &["one", "two"]] {
        let output = run(install(scratch.path()).args(names), b"");
        failed(&output, &scratch, &["usage", "./install PREFIX"]);
    }
}

#[test]
fn where_something_is_not_built_nothing_is_copied() {
    let (scratch, empty) = (Scratch::new("not-built"), Scratch::new("empty"));
    for (variable, file) in [("CIDHOMBA_LIBRARY_DIR", "libcidhomba.a"), ("CIDHOMBA_PROGRAMS_DIR", "sample")] {
        let output = run(install(scratch.path()).arg("prefix").env(variable, empty.path()), b"");
        let missing = empty.path().join(file).display().to_string();
        failed(&output, &scratch, &[&missing, "./quickstart"]);
    }
}
