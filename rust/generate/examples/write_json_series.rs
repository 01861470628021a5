//! Writes a series of texts in JSON to a directory that is there: `write_json_series SERIES DIRECTORY`.
//!
//! Beside each text stand the rows that the reference reads it to, their cells low byte first, and with the series its
//! list of keys. The texts' paths are printed, in order.

use std::path::{Path, PathBuf};
use std::{env, fs, process};

use generate::json_export::{key_list, KEYS};
use generate::json_series::ALL;
use reference::limits::{MAX_ROWS, ROW_CELLS};
use reference::read_json;

fn main() {
    let arguments: Vec<String> = env::args().skip(1).collect();
    let known = |name: &String| ALL.iter().find(|(series, _)| series == name);
    let (Some((_, series)), Some(directory), 2) =
        (arguments.first().and_then(known), arguments.get(1), arguments.len())
    else {
        let names = ALL.map(|(series, _)| series).join(", ");
        eprintln!("usage: write_json_series SERIES DIRECTORY, a series being one of {names}");
        process::exit(2);
    };
    let keys = key_list(&KEYS);
    write(Path::new(directory).join("keys"), &keys);
    for (name, text) in series() {
        let document = read_json(&keys, text.as_bytes(), ROW_CELLS * MAX_ROWS).expect("the text is read");
        let rows: Vec<u8> = document.cells().into_iter().flat_map(u16::to_le_bytes).collect();
        let path = Path::new(directory).join(format!("{name}.json"));
        write(path.with_extension("rows"), &rows);
        println!("{}", path.display());
        write(path, text.as_bytes());
    }
}

fn write(path: PathBuf, bytes: &[u8]) {
    fs::write(&path, bytes).unwrap_or_else(|error| panic!("{}: {error}", path.display()));
}
