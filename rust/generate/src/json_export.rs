//! The agreed statistics export in JSON: its keys, and exports of any size.

use crate::export::Columns;

/// The keys that the site lists; the queue's length is one that it knows and did not agree to.
pub const KEYS: [&str; 16] = [
    "pool",
    "time",
    "servers",
    "name",
    "address",
    "weight",
    "sessions",
    "rate",
    "bytes_in",
    "bytes_out",
    "limit",
    "checks",
    "downtime",
    "load",
    "status",
    "queue",
];

/// Keys as a list, a line for each.
pub fn key_list(keys: &[&str]) -> Vec<u8> {
    keys.iter().flat_map(|key| format!("{key}\n").into_bytes()).collect()
}

/// How a text is laid out.
#[derive(Clone, Copy, PartialEq, Eq)]
pub enum Layout {
    /// Without white space.
    Compact,
    /// A line for each member, three spaces further in on each level.
    Pretty,
}

/// An export of so many servers.
pub fn export_text(servers: usize, columns: Columns, layout: Layout) -> String {
    let servers = (0..servers).map(|server| object(&fields(server, servers, columns), layout, 2)).collect();
    export_with(servers, &[], layout)
}

/// A line of a remark as it stands in a string, with escapes and a character of two bytes.
pub const LINE: &str =
    r#"2026-11-15 20:35:06 web01 was drained for an update and came back, caf\u00e9 pool; é, \"ok\"\n"#;
/// One without escapes, and in ASCII.
pub const PLAIN_LINE: &str =
    "2026-11-15 20:35:06 web01 was drained for an update and came back to the pool at 20:41:17; ";

/// An export of one server, with a remark under a key that is not listed: a line again and again, up to so many bytes or
/// a few more.
pub fn export_with_remark(line: &str, bytes: usize) -> String {
    let remark = format!("\"{}\"", line.repeat(bytes.div_ceil(line.len())));
    let server = object(&fields(0, 1, Columns::Agreed), Layout::Compact, 2);
    export_with(vec![server], &[("remark", remark)], Layout::Compact)
}

/// An export of equal servers in arrays of arrays of arrays, each of so many: of few rows, however long it is.
pub fn export_of_equal_servers(side: usize) -> String {
    let array = |part: &String| bracketed("[", "]", &vec![part.clone(); side], Layout::Compact, 0);
    let server = object(&fields(0, 1, Columns::Agreed), Layout::Compact, 0);
    export_with(vec![array(&array(&server)); side], &[], Layout::Compact)
}

/// The servers of an export with what stands around them, and further members in front of them.
fn export_with(servers: Vec<String>, further: &[(&'static str, String)], layout: Layout) -> String {
    let mut members = vec![("pool", "\"web\"".to_string()), ("time", "1794760200".to_string())];
    members.extend(further.iter().cloned());
    members.push(("servers", bracketed("[", "]", &servers, layout, 1)));
    let end = if layout == Layout::Pretty { "\n" } else { "" };
    object(&members, layout, 0) + end
}

/// The members of a server. Some values recur, and some are a server's own.
fn fields(server: usize, servers: usize, columns: Columns) -> Vec<(&'static str, String)> {
    let text = |value: String| format!("\"{value}\"");
    let (checks, downtime, load, status) =
        [(0, 0, "0.125", "up"), (3, 60, "0.0", "drain"), (1, 0, "1.5", "up"), (2, 120, "-0.0", "down")]
            [server % 4];
    let mut fields = vec![
        ("name", text(format!("web{:02}", server + 1))),
        ("address", text(format!("10.0.0.{}:8080", server + 11))),
        ("weight", (10 * (1 + server % 5)).to_string()),
        ("sessions", (40 + 17 * server % 29).to_string()),
        ("rate", format!("{:.1}", 0.5 * (server * 7 % 31) as f64)),
        ("bytes_in", (90_210 * (server + 3)).to_string()),
        ("bytes_out", (1_048_583 * (server + 1)).to_string()),
        ("limit", "2000".to_string()),
        ("checks", checks.to_string()),
        ("downtime", downtime.to_string()),
        ("load", load.to_string()),
        ("status", text(status.to_string())),
        ("pool", text("web".to_string())),
    ];
    match columns {
        Columns::Agreed => {}
        Columns::WithQueue => fields.insert(2, ("queue", (90 - server % 8).to_string())),
        Columns::SwappedOnce if server + 1 == servers => fields.swap(2, 3),
        Columns::SwappedOnce => {}
    }
    fields
}

/// An object whose brackets stand so many levels in.
pub(crate) fn object(members: &[(&str, String)], layout: Layout, depth: usize) -> String {
    let space = if layout == Layout::Pretty { " " } else { "" };
    let parts: Vec<String> = members.iter().map(|(key, value)| format!("\"{key}\":{space}{value}")).collect();
    bracketed("{", "}", &parts, layout, depth)
}

/// Parts with commas in brackets that stand so many levels in.
pub(crate) fn bracketed(open: &str, close: &str, parts: &[String], layout: Layout, depth: usize) -> String {
    match layout {
        Layout::Compact => format!("{open}{}{close}", parts.join(",")),
        Layout::Pretty => {
            let (outer, inner) = ("   ".repeat(depth), "   ".repeat(depth + 1));
            format!("{open}\n{inner}{}\n{outer}{close}", parts.join(&format!(",\n{inner}")))
        }
    }
}

/// The texts that are measured, by what they are: exports of 30 and 60 servers without white space, the latter with it,
/// and two of one server with a long remark, the one with escapes and the other without.
pub fn measured() -> [(&'static str, String); 5] {
    let export = |servers, layout| export_text(servers, Columns::Agreed, layout);
    [
        ("30 servers", export(30, Layout::Compact)),
        ("60 servers", export(60, Layout::Compact)),
        ("60 servers, a line for each member", export(60, Layout::Pretty)),
        ("one server and a remark", export_with_remark(LINE, 150_000)),
        ("one server and a plain remark", export_with_remark(PLAIN_LINE, 150_000)),
    ]
}

#[cfg(test)]
mod tests {
    use super::*;
    use reference::limits::{MAX_ROWS, ROW_CELLS};
    use reference::read_json;

    #[test]
    fn the_measured_texts_are_read_and_have_about_the_sizes_wanted() {
        let wanted: [u32; 5] = [6, 12, 21, 150, 150];
        assert_eq!(measured().len(), wanted.len());
        for ((name, text), kilobytes) in measured().into_iter().zip(wanted) {
            let read = read_json(&key_list(&KEYS), text.as_bytes(), ROW_CELLS * MAX_ROWS);
            assert!(read.is_ok(), "{name}: {:?}", read.err());
            let size = text.len() as f64 / 1000.0;
            assert!((size / f64::from(kilobytes) - 1.0).abs() < 0.08, "{name}: {size} KB");
        }
    }
}
