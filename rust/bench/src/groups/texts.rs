//! Export texts of about 3 KB, 30 KB and 3 MB, and one of about 30 KB whose leaves are all rates.

use cidhomba::{Names, ROW_CELLS};
use generate::export::{agreed_set, export, Columns};
use generate::Random;
use reference::{Document, Row, Scalar};

/// A text with its rows, under a name that tells its length.
pub struct Text {
    pub name: String,
    pub bytes: Vec<u8>,
    pub rows: Vec<u16>,
}

impl Text {
    fn of(rows: Vec<u16>, names: Names, name: fn(&str) -> String) -> Text {
        let set = agreed_set().encode();
        let bytes = reference::write_term(&set, names.site, names.built_in, &rows, usize::MAX);
        let bytes = bytes.expect("a sound table");
        let name = name(&format!("{:.1} KB", bytes.len() as f64 / 1000.0));
        Text { name, bytes, rows }
    }

    /// The same text with its rows as a reader numbers them, by first finishing.
    pub fn renumbered(self, names: Names) -> Text {
        let set = agreed_set().encode();
        let document = reference::read_term(&set, names.site, names.built_in, &self.bytes, self.rows.len());
        Text { rows: document.expect("a sound text").cells(), ..self }
    }
}

/// The three exports and the text of rates, with the names given.
pub fn all(names: Names) -> [Text; 4] {
    let [small, middling] = [7, 75].map(|servers| export(servers, Columns::Agreed).cells());
    let large = a_hundred_times(&middling);
    let [small, middling, large] =
        [small, middling, large].map(|rows| Text::of(rows, names, |size| format!("text of {size}")));
    [small, middling, large, of_rates(names)]
}

/// A table a hundred times over, by rows over four others: no table has more than 1,024 rows.
fn a_hundred_times(rows: &[u16]) -> Vec<u16> {
    let (mut rows, once) = (rows.to_vec(), (rows.len() / ROW_CELLS - 1) as u16);
    let [four, sixteen, sixty_four] = [once + 1, once + 2, once + 3];
    for [a, b, c, d] in [[once; 4], [four; 4], [sixteen; 4], [sixty_four, sixteen, sixteen, four]] {
        rows.extend([WITH_FOUR_CHILDREN, a, b, c, d, 0, 0, 0, 0, 0]);
    }
    rows
}

/// A text of 1,024 random rates, over five levels of rows with four children. 683 of the rates differ, which
/// with the 341 rows over them is as many rows as a table can have.
fn of_rates(names: Names) -> Text {
    const DIFFERENT: usize = 683;
    let random = &mut Random::new(4);
    let rate = |_| Row { symbol: DOWNTIME, children: vec![], scalar: Scalar::Rate(random.word()) };
    let mut rows: Vec<Row> = (0..DIFFERENT).map(rate).collect();
    let mut level: Vec<usize> = (0..1024).map(|place| place % DIFFERENT).collect();
    while level.len() > 1 {
        let first = rows.len();
        rows.extend(level.chunks(4).map(|children| Row {
            symbol: COLUMNS,
            children: children.to_vec(),
            scalar: Scalar::Bare,
        }));
        level = (first..rows.len()).collect();
    }
    Text::of(Document { rows }.cells(), names, |size| format!("{size} of rates"))
}

/// The symbol `fields`.
const WITH_FOUR_CHILDREN: u16 = 5;
/// The symbol `columns`, with four children. Its name and that of `downtime` are long enough for a text of 30 KB.
const COLUMNS: usize = 4;
/// The symbol `downtime`, without children.
const DOWNTIME: usize = 19;
