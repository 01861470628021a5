//! Measures the verified library against idiomatic Rust: `bench [GROUP ..]`, and without one all groups but those that
//! are measured by name only.
//!
//! Each row of a table is one input. Both sides answer it once before anything is timed, and must agree.

mod groups;

use std::env;

/// The groups by their names; a group can be measured once the library has its functions.
const GROUPS: &[(&str, fn())] = &[
    ("check", groups::check::measure),
    ("membership", groups::membership::measure),
    ("boolean", groups::boolean::measure),
    ("moves", groups::moves::measure),
    ("witness", groups::witness::measure),
    ("read_term", groups::read_term::measure),
    ("write_term", groups::write_term::measure),
    ("read_json", groups::read_json::measure),
];

/// Groups that are measured only where they are named: a library that tries every choice takes minutes for some of them.
const BY_NAME: &[(&str, fn())] = &[("hard", groups::hard::measure), ("hard_few", groups::hard::measure_few)];

fn main() {
    let wanted: Vec<String> = env::args().skip(1).collect();
    let all = || GROUPS.iter().chain(BY_NAME);
    let known = |name: &String| all().any(|(group, _)| group == name);
    if let Some(unknown) = wanted.iter().find(|name| !known(name)) {
        let groups: Vec<&str> = all().map(|(group, _)| *group).collect();
        eprintln!("no group `{unknown}`; there is: {}", groups.join(", "));
        std::process::exit(2);
    }
    let is_wanted = |name: &str| wanted.iter().any(|wanted| wanted == name);
    let by_default = if wanted.is_empty() { GROUPS } else { &[] };
    let by_name = all().filter(|(group, _)| is_wanted(group));
    by_default.iter().chain(by_name).for_each(|(_, measure)| measure());
}
