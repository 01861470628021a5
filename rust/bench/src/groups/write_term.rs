//! Writing term text.

use bench::baseline;
use bench::measure::Table;
use cidhomba::{write_term, Names};
use generate::export::{agreed_set, name_list};

use super::texts;

pub fn measure() {
    let set = agreed_set().encode();
    let list = name_list();
    let names = Names { site: list.as_bytes(), built_in: b"" };
    let table = Table::open("Writing term text");
    for text in texts::all(names) {
        let space = text.bytes.len();
        let mut out = vec![0; space];
        let rust = || baseline::term::write(&set, names.site, names.built_in, &text.rows, space);
        assert_eq!(write_term(&set, names, &text.rows, &mut out), Ok(&text.bytes[..]));
        assert_eq!(rust().as_ref(), Ok(&text.bytes));
        let library = || write_term(&set, names, &text.rows, &mut out).map(<[u8]>::len);
        table.row(&text.name, library, rust);
    }
}
