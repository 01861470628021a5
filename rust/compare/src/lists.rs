//! Name lists as tests lend them.

use generate::example_files::file;
use reference::limits::{MAX_ROWS, ROW_CELLS};

/// The site's list and the built-in one.
pub type Lists<'a> = (&'a [u8], &'a [u8]);

/// The export of the examples, with their list of names.
pub struct NamedExport {
    pub set: Vec<u8>,
    pub rows: Vec<u16>,
    /// The rows as text, by the names of the list.
    pub text: Vec<u8>,
    pub plain: Vec<u8>,
    pub windows: Vec<u8>,
}

impl NamedExport {
    pub fn of_the_examples() -> NamedExport {
        let (set, plain, windows) = (file("agreed.set"), file("agreed.names"), file("agreed-windows.names"));
        let export = reference::read_term(&set, b"", b"", &file("export.term"), ROW_CELLS * MAX_ROWS);
        let rows = export.expect("a sound text").cells();
        let text = reference::write_term(&set, &plain, b"", &rows, usize::MAX).expect("a sound table");
        NamedExport { set, rows, text, plain, windows }
    }
}
