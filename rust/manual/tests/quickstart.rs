//! `./quickstart` over a stand-in for the prover: what it tells, what it builds again, and where it stops.

use std::env;
use std::fs;
use std::os::unix::fs::PermissionsExt;
use std::path::{Path, PathBuf};
use std::process::{Command, Output};

use manual::files;
use manual::process::run;
use manual::scratch::Scratch;

/// Answers as `rt` does, among other words of the prover, and notes each call with the crate in whose folder it came.
/// A crate is proved where its source is not as it was. `$FAILS` names a call that fails.
const STAND_IN: &str = r#"#!/bin/sh
crate=$(basename "$PWD")
echo "$1 $crate" >>"$(dirname "$0")/../calls"
[ "$1 $crate" != "${FAILS:-}" ] || { echo "rt: FAILED: stand-in"; exit 1; }
case $1 in
version) echo stand-in ;;
lib | run)
    if [ "$crate" != cidhomba ] && cmp -s src/lib.rt out/stamp; then
        echo "rt: nothing has changed since the last proved build"
    else
        echo "fn $crate::main: proved"
        echo "logic=proved functions=1"
        mkdir -p out && cp src/lib.rt out/stamp
    fi
    [ "$crate" != cidhomba ] || echo library >out/libcidhomba.a
    [ "$1" != run ] || cp /bin/sh "out/$crate" ;;
esac
"#;

/// A copy of the script in a directory with links to all that it reads, with nothing built.
struct Place {
    scratch: Scratch,
}

impl Place {
    fn new(name: &str) -> Place {
        let scratch = Scratch::with_links(name);
        let of = |file: &str| scratch.path().join(file);
        for file in ["quickstart", "target", "crates"] {
            let _ = fs::remove_file(of(file));
        }
        for name in crates() {
            let source = of("crates").join(name).join("src");
            fs::create_dir_all(&source).expect("a crate's directory is made");
            fs::write(source.join("lib.rt"), b"one").expect("a crate's source is written");
        }
        fs::copy(files::root().join("quickstart"), of("quickstart")).expect("the script is copied");
        fs::create_dir(of("stand-ins")).expect("a directory is made");
        Place { scratch }
    }

    fn path(&self, name: &str) -> PathBuf {
        self.scratch.path().join(name)
    }

    /// A tool of a test's own.
    fn tool(&self, name: &str, text: &str) {
        let path = self.path("stand-ins").join(name);
        fs::write(&path, text).expect("the tool is written");
        fs::set_permissions(&path, fs::Permissions::from_mode(0o755)).expect("the tool can be run");
    }

    /// The script, with these tools before the machine's own.
    fn script(&self) -> Command {
        let machine = env::var("PATH").expect("there is a PATH");
        let mut command = Command::new(self.path("quickstart"));
        command.env("PATH", format!("{}:{machine}", self.path("stand-ins").display()));
        command
    }

    /// What `rt` was asked for since the last time.
    fn calls(&self) -> Vec<String> {
        let calls = fs::read_to_string(self.path("calls")).unwrap_or_default();
        let _ = fs::remove_file(self.path("calls"));
        calls.lines().map(str::to_string).collect()
    }
}

/// One with stand-ins for the prover and for cargo.
fn with_stand_ins(name: &str) -> Place {
    let place = Place::new(name);
    place.tool("rt", STAND_IN);
    place.tool("cargo", "#!/bin/sh\necho the evening\n");
    place
}

fn told(output: &Output) -> String {
    String::from_utf8_lossy(&output.stderr).to_string()
}

/// Runs the script to its end, and answers the crates that it told as proved.
fn proved(place: &Place) -> Vec<String> {
    let output = run(&mut place.script(), b"");
    assert!(output.status.success(), "{}", told(&output));
    assert_eq!(String::from_utf8_lossy(&output.stdout), "the evening\n");
    let name = |line: &str| {
        let (name, time) = line.split_once(" proved (").unwrap_or_else(|| panic!("told: {line}"));
        assert!(time.strip_suffix(" s)").is_some_and(|time| time.parse::<u32>().is_ok()), "told: {line}");
        name.to_string()
    };
    told(&output).lines().map(name).collect()
}

/// The crates below the static library and the programs as they are listed, then the programs, then the library's own crate.
fn crates() -> Vec<String> {
    let listed = files::text("crates.txt");
    let uses = |name: &str| {
        let line = listed.lines().find_map(|line| line.strip_prefix(name)).expect("it is listed");
        line.split_whitespace().map(str::to_string).collect::<Vec<_>>()
    };
    let wanted = ["cidhomba staticlib:", "sample:", "judge:"].map(uses).concat();
    let names = listed.lines().filter_map(|line| line.split([' ', ':']).next()).map(str::to_string);
    let below = names.filter(|name| wanted.contains(name));
    below.chain(["sample", "judge", "cidhomba"].map(str::to_string)).collect()
}

#[test]
fn each_crate_is_told_once_and_proved_once() {
    let place = with_stand_ins("once");
    assert_eq!(proved(&place), crates());
    assert!(place.calls().contains(&"lib cidhomba".to_string()));
    assert_eq!(proved(&place), [""; 0]);
    assert!(!place.calls().contains(&"lib cidhomba".to_string()));
}

#[test]
fn what_is_gone_or_changed_is_built_again() {
    let place = with_stand_ins("again");
    let built = ["target/bin/sample", "target/bin/judge", "target/staticlib/libcidhomba.a"];
    let are_there =
        || built.iter().all(|name| fs::metadata(place.path(name)).is_ok_and(|file| file.len() > 0));
    proved(&place);
    assert!(are_there());
    fs::remove_file(place.path("target/bin/sample")).expect("the program goes");
    fs::write(place.path("target/bin/judge"), b"").expect("the program is emptied");
    assert_eq!(proved(&place), [""; 0]);
    assert!(are_there());
    fs::remove_file(place.path("target/staticlib/libcidhomba.a")).expect("the library goes");
    assert_eq!(proved(&place), ["cidhomba"]);
    assert!(are_there());
    fs::write(place.path("crates/term/src/lib.rt"), b"another").expect("a crate below changes");
    assert_eq!(proved(&place), ["term", "cidhomba"]);
}

#[test]
fn where_the_prover_fails_the_script_says_so_and_stops() {
    for fails in ["lib term", "run judge", "lib cidhomba"] {
        let place = with_stand_ins(&fails.replace(' ', "-"));
        let output = run(place.script().env("FAILS", fails), b"");
        assert!(!output.status.success() && output.stdout.is_empty());
        assert!(told(&output).contains("target/quickstart.log"), "{}", told(&output));
        let log = fs::read_to_string(place.path("target/quickstart.log")).expect("the log is there");
        assert!(log.contains("FAILED: stand-in"), "{log}");
    }
}

/// The place of a tool of the machine.
fn machine_tool(name: &str) -> PathBuf {
    let path = env::var_os("PATH").expect("there is a PATH");
    let found = env::split_paths(&path).map(|directory| directory.join(name)).find(|tool| tool.is_file());
    found.unwrap_or_else(|| panic!("there is no {name}"))
}

/// Only what the script itself needs to start, and `extra` tools that do nothing.
fn told_with(place: &Place, extra: &[&str]) -> String {
    let few = place.path("few");
    fs::create_dir_all(&few).expect("a directory is made");
    for name in ["bash", "dirname", "readlink"] {
        let _ = std::os::unix::fs::symlink(machine_tool(name), few.join(name));
    }
    for name in extra {
        let _ = std::os::unix::fs::symlink(Path::new("/bin/false"), few.join(name));
    }
    let output = run(Command::new(place.path("quickstart")).env("PATH", &few), b"");
    assert!(!output.status.success() && output.stdout.is_empty());
    told(&output)
}

#[test]
fn tools_that_are_missing_are_told_before_anything_is_done() {
    let place = Place::new("tools");
    assert!(told_with(&place, &[]).contains("PATH: rt cargo gcc"));
    assert!(told_with(&place, &["rt", "gcc"]).contains("PATH: cargo ("));
    assert!(!place.path("target").exists());
}
