//! Reading term text, and what it costs for each byte.

use bench::baseline;
use bench::measure::Table;
use cidhomba::{read_term, Names, MAX_ROWS, ROW_CELLS};
use generate::export::{agreed_set, name_list};

use super::texts;

pub fn measure() {
    const SPACE: usize = ROW_CELLS * MAX_ROWS;
    let set = agreed_set().encode();
    let list = name_list();
    let names = Names { site: list.as_bytes(), built_in: b"" };
    let table = Table::open("Reading term text");
    let mut costs = Vec::new();
    for text in texts::all(names).map(|text| text.renumbered(names)) {
        let mut rows = vec![0; SPACE];
        let rust = || baseline::term::read(&set, names.site, names.built_in, &text.bytes, SPACE);
        assert_eq!(read_term(&set, names, &text.bytes, &mut rows), Ok(&text.rows[..]));
        assert_eq!(rust().as_ref(), Ok(&text.rows));
        let library = || read_term(&set, names, &text.bytes, &mut rows).map(<[u16]>::len);
        let time = table.row(&text.name, library, rust);
        costs.push((text.name, 1000.0 * time / text.bytes.len() as f64));
    }
    println!("\n| Text | Library, ns for a byte |\n|---|---|");
    for (name, cost) in costs {
        println!("| {name} | {cost:.2} |");
    }
}
