//! Without the static library the build stops at once and says what to do.

use std::fs;
use std::path::Path;
use std::process::Command;

#[test]
fn a_build_without_the_library_says_what_to_do() {
    // A target directory of its own, so that this cargo waits for no other and finds nothing built before.
    let scratch = Path::new(env!("CARGO_TARGET_TMPDIR")).join("no_library");
    let empty = scratch.join("empty");
    let _ = fs::remove_dir_all(&scratch);
    fs::create_dir_all(&empty).expect("a directory is made");
    let output = Command::new(env!("CARGO"))
        .args(["build", "--offline", "-p", "cidhomba"])
        .current_dir(env!("CARGO_MANIFEST_DIR"))
        .env("CIDHOMBA_LIBRARY_DIR", &empty)
        .env("CARGO_TARGET_DIR", scratch.join("target"))
        .output()
        .expect("cargo starts");
    fs::remove_dir_all(&scratch).expect("the directory goes");
    let errors = String::from_utf8_lossy(&output.stderr);
    assert!(!output.status.success(), "{errors}");
    let path = empty.join("libcidhomba.a").display().to_string();
    for told in [&path, "./quickstart", "./install", "CIDHOMBA_LIBRARY_DIR"] {
        assert!(errors.contains(told), "there is no {told} in: {errors}");
    }
}
