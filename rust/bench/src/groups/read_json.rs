//! Reading JSON, and what it costs for each byte.

use bench::baseline;
use bench::measure::Table;
use cidhomba::{read_json, MAX_ROWS, ROW_CELLS};
use generate::json_export::{key_list, measured, KEYS};

pub fn measure() {
    const SPACE: usize = ROW_CELLS * MAX_ROWS;
    let keys = key_list(&KEYS);
    let table = Table::open("Reading JSON, with a list of 16 keys");
    let mut costs = Vec::new();
    for (name, text) in measured() {
        let name = format!("{name}, {:.1} KB", text.len() as f64 / 1000.0);
        let mut rows = vec![0; SPACE];
        let rust = || baseline::json::read(&keys, text.as_bytes(), SPACE);
        let by_rust = rust().expect("an export is read");
        assert_eq!(read_json(&keys, text.as_bytes(), &mut rows), Ok(&by_rust[..]), "{name}");
        let library = || read_json(&keys, text.as_bytes(), &mut rows).map(<[u16]>::len);
        let time = table.row(&name, library, rust);
        costs.push((name, 1000.0 * time / text.len() as f64));
    }
    println!("\n| Text | Library, ns for a byte |\n|---|---|");
    for (name, cost) in costs {
        println!("| {name} | {cost:.2} |");
    }
}
