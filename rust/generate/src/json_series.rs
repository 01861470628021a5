//! The series of texts in JSON that are measured beside other readers, each by its name.

use crate::export::Columns;
use crate::json_export::{
    self, export_of_equal_servers, export_text, export_with_remark, Layout, LINE, PLAIN_LINE,
};

/// The texts of a series, from the shortest to the longest, each by what it is.
pub type Series = Vec<(String, String)>;

/// A series by its name.
type Named = (&'static str, fn() -> Series);

/// The texts that are measured everywhere, and the series that tell what a byte costs, in texts from short to long.
pub const ALL: [Named; 5] = [
    ("measured", measured),
    ("different", different_servers),
    ("equal", equal_servers),
    ("escapes", || remarks("a remark with escapes", LINE)),
    ("plain", || remarks("a plain remark", PLAIN_LINE)),
];

fn measured() -> Series {
    json_export::measured().map(|(name, text)| (name.to_string(), text)).into()
}

/// Servers that differ, up to the most that 1,024 rows have room for.
fn different_servers() -> Series {
    let export = |servers| export_text(servers, Columns::Agreed, Layout::Compact);
    [5, 10, 20, 40, 77].map(|servers| (format!("{servers} different servers"), export(servers))).into()
}

/// Equal servers, whose rows are few.
fn equal_servers() -> Series {
    let name = |side: usize| format!("{} equal servers", side.pow(3));
    [4, 8, 17, 37].map(|side| (name(side), export_of_equal_servers(side))).into()
}

/// One long string.
fn remarks(what: &str, line: &str) -> Series {
    let remark = |bytes| (format!("{what} of {bytes} bytes"), export_with_remark(line, bytes));
    [10_000, 100_000, 1_000_000, 10_000_000].map(remark).into()
}

#[cfg(test)]
mod tests {
    use super::*;
    use crate::json_export::{key_list, KEYS};
    use reference::limits::{MAX_ROWS, ROW_CELLS};
    use reference::read_json;

    /// The rows of each text of a series.
    fn rows(series: Series) -> Vec<usize> {
        let read = |text: &str| read_json(&key_list(&KEYS), text.as_bytes(), ROW_CELLS * MAX_ROWS);
        let rows = |(name, text): (String, String)| match read(&text) {
            Ok(document) => document.rows.len(),
            Err(refusal) => panic!("{name}: {refusal:?}"),
        };
        series.into_iter().map(rows).collect()
    }

    #[test]
    fn every_text_is_read_and_longer_than_the_one_before() {
        for (name, series) in ALL {
            let series = series();
            assert!(series.windows(2).all(|pair| pair[0].1.len() < pair[1].1.len()), "{name}");
            assert_eq!(rows(series.clone()).len(), series.len(), "{name}");
        }
    }

    #[test]
    fn servers_that_differ_fill_all_rows_and_equal_ones_few() {
        assert_eq!(rows(different_servers()).last(), Some(&MAX_ROWS));
        assert!(rows(equal_servers()).into_iter().all(|rows| rows < 150));
    }
}
