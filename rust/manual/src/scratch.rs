//! A directory of a test's own, gone when the test is.

use std::env;
use std::fs;
use std::os::unix::fs::symlink;
use std::path::{Path, PathBuf};
use std::process;

use crate::files;

/// An empty directory, removed with all that it holds.
pub struct Scratch {
    path: PathBuf,
}

impl Scratch {
    /// The name must be one that no other test of the same program takes.
    pub fn new(name: &str) -> Scratch {
        let path = env::temp_dir().join(format!("cidhomba-{}-{name}", process::id()));
        fs::create_dir(&path).unwrap_or_else(|error| panic!("{}: {error}", path.display()));
        Scratch { path }
    }

    /// One that looks like the repository's root, so that a command finds its files and writes none of its own there.
    pub fn with_links(name: &str) -> Scratch {
        let scratch = Scratch::new(name);
        for entry in fs::read_dir(files::root()).expect("the repository can be listed") {
            let entry = entry.expect("an entry of the repository");
            if entry.file_name() != ".git" {
                symlink(entry.path(), scratch.path.join(entry.file_name())).expect("a link is made");
            }
        }
        scratch
    }

    pub fn path(&self) -> &Path {
        &self.path
    }

    /// The files below, by their names from here, in order; links are not followed.
    pub fn files(&self) -> Vec<String> {
        let mut found = Vec::new();
        let mut left = vec![self.path.clone()];
        while let Some(directory) = left.pop() {
            for entry in fs::read_dir(directory).expect("a directory can be listed") {
                let entry = entry.expect("an entry of the directory");
                if entry.file_type().expect("the kind of an entry").is_dir() {
                    left.push(entry.path());
                } else {
                    let path = entry.path();
                    let name = path.strip_prefix(&self.path).expect("the file stands below");
                    found.push(name.display().to_string());
                }
            }
        }
        found.sort();
        found
    }
}

impl Drop for Scratch {
    fn drop(&mut self) {
        // A directory that stays is no reason to fail a test.
        let _ = fs::remove_dir_all(&self.path);
    }
}
