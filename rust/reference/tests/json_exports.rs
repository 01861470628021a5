//! The exports in `examples/json`, read with their key lists and judged by their sets.

mod common;

use std::fs;
use std::path::Path;

use common::ROW_SPACE;
use reference::limits::{ANNOTATION_CELLS, MAX_ROOM, STEP_CELLS};
use reference::{membership, read_json, Document, Refusal, Scalar};

fn file(name: &str) -> Vec<u8> {
    let path = Path::new(env!("CARGO_MANIFEST_DIR")).join("../../examples/json").join(name);
    fs::read(&path).unwrap_or_else(|error| panic!("{}: {error}", path.display()))
}

/// An export read with the key list of that name.
fn read(keys: &str, export: &[u8]) -> Result<Document, Refusal> {
    read_json(&file(&format!("{keys}.keys")), export, ROW_SPACE)
}

/// Whether the set of that name lets an export in.
fn is_let_in(set: &str, export: &[u8]) -> bool {
    is_let_in_with_keys(set, set, export)
}

/// The same where the list of keys has a name of its own.
fn is_let_in_with_keys(set: &str, keys: &str, export: &[u8]) -> bool {
    let rows = read(keys, export).expect("the export is read").cells();
    let (work, run) = (ANNOTATION_CELLS * MAX_ROOM, STEP_CELLS * MAX_ROOM);
    membership(&file(&format!("{set}.set")), &rows, work, run).expect("there is room").is_yes()
}

/// An export with some of its text changed, wherever it stands.
fn changed(export: &str, from: &str, to: &str) -> Vec<u8> {
    let text = String::from_utf8(file(export)).expect("exports are UTF-8");
    assert!(text.contains(from), "{export} has no {from}");
    text.replace(from, to).into_bytes()
}

#[test]
fn exports_of_five_makers_are_read() {
    let rows = |read: Result<Document, Refusal>| read.expect("the export is read").rows.len();
    for (maker, with_keys, without) in [
        ("uwsgi", 151, 154),
        ("bind", 199, 209),
        ("lighttpd", 15, 22),
        ("caddy", 29, 32),
        ("haproxy", 924, 936),
    ] {
        let export = file(&format!("{maker}.json"));
        assert_eq!(rows(read(maker, &export)), with_keys, "{maker}");
        assert_eq!(rows(read_json(b"", &export, ROW_SPACE)), without, "{maker} without keys");
    }
}

#[test]
fn that_of_dnsdist_has_a_number_of_too_many_digits() {
    let export = file("dnsdist.json");
    assert_eq!(read("dnsdist", &export), Err(Refusal::at(73, 669)));
    assert!(export[669..].starts_with(b"0.035240798629331695,"));
    let shorter = changed("dnsdist.json", "0.035240798629331695", "0.03524079862933");
    let place =
        669 + 1 + String::from_utf8_lossy(&shorter[670..]).find("0.0035889261474609377").expect("another");
    assert_eq!(read("dnsdist", &shorter), Err(Refusal::at(73, place)), "and so has the next");
}

#[test]
fn the_bad_evening() {
    let judged = |export: &str| is_let_in("evening", &file(export));
    assert!(judged("evening.json"));
    assert!(!judged("evening-queue.json"), "the queue's length joined it");
    assert!(!judged("evening-swapped.json"), "the last server has two keys in the other order");
}

#[test]
fn the_agreed_shape_is_demanded_and_white_space_is_not() {
    let judged = |from: &str, to: &str| is_let_in("evening", &changed("evening.json", from, to));
    assert!(judged("\n", " "));
    assert!(judged(": 0.0,", ": -0.0,"));
    assert!(judged("\"web\"", "\"dns\""), "any pool, the same for all");
    assert!(!judged("\"name\": \"web02\"", "\"name\": 2"));
    assert!(!judged("\"weight\": 20,", ""));
    assert!(!judged("\"weight\": 20,", "\"weight\": \"20\","));
    assert!(!judged("\"weight\": 20,", "\"wait\": 20,"));
    assert!(!judged("\"status\": \"down\",", "\"status\": \"down\", \"note\": null,"));
    assert!(!judged("\"time\": 1794760200", "\"time\": null"));
}

#[test]
fn a_server_of_another_pool_is_turned_away() {
    let export = String::from_utf8(file("evening.json")).expect("exports are UTF-8");
    let last = export.rfind("\"web\"").expect("the last server has a pool");
    assert!(!is_let_in("evening", [&export[..last], "\"dns\"", &export[last + 5..]].concat().as_bytes()));
}

#[test]
fn paired_servers() {
    let judged = |export: &str| is_let_in("paired", &file(export));
    assert!(judged("paired.json"));
    assert!(!judged("paired-mixed.json"), "the last pair has two cluster names");
    assert!(!judged("paired-odd.json"), "the last server has no other");
    assert!(!is_let_in_with_keys("paired-strict", "paired", &file("paired.json")), "nothing is forgotten");
    let one_cluster = ["cluster-2", "cluster-3", "cluster-4"]
        .iter()
        .fold(String::from_utf8(file("paired.json")).expect("exports are UTF-8"), |text, name| {
            text.replace(name, "cluster-1")
        });
    assert!(is_let_in("paired", one_cluster.as_bytes()));
    assert!(is_let_in_with_keys("paired-strict", "paired", one_cluster.as_bytes()));
}

#[test]
fn each_pair_of_servers_has_one_cluster_and_pairs_may_share_theirs() {
    let judged = |from: &str, to: &str| is_let_in("paired", &changed("paired.json", from, to));
    assert!(judged("cluster-3", "cluster-1"));
    assert!(judged("\n", " "));
    assert!(!judged(
        "\"name\": \"web03\",\n         \"cluster\": \"cluster-2\"",
        "\"name\": \"web03\", \"cluster\": \"x\""
    ));
    assert!(!judged("\"weight\": 20", "\"weight\": \"20\""));
    assert!(!judged("\"cluster\": \"cluster-1\",", ""));
}

#[test]
fn uwsgi_is_let_in_by_where_its_weights_stand() {
    assert!(is_let_in("uwsgi", &file("uwsgi.json")));
    let judged = |from: &str, to: &str| is_let_in("uwsgi", &changed("uwsgi.json", from, to));
    assert!(!judged("\"weight\":20,", ""), "one node has none");
    assert!(!judged("\"weight\":20,", "\"wait\":20,"), "one node has it under another key");
    assert!(!judged("\"weight\"", "\"wait\""), "all have");
    assert!(!judged("\"weight\":20,", "\"weight\":\"20\","), "one node has a text there");
    assert!(!judged("\"nodes\"", "\"peers\""));
    assert!(!judged("\"subscriptions\"", "\"peers\""));
    assert!(judged("\"weight\":20,", "\"queue\":9,\"weight\":20,"), "a key that joins is no weight");
    assert!(judged("\"name\":", "\"called\":"));
}

#[test]
fn each_weight_of_uwsgi_is_a_count_below_its_key() {
    let document = read("uwsgi", &file("uwsgi.json")).expect("the export is read");
    // The list has three keys, and the symbol of the third is 10.
    let weights = document.rows.iter().filter(|row| row.symbol == 10).map(|row| row.children[0]);
    let mut weights: Vec<Scalar> = weights.map(|leaf| document.rows[leaf].scalar).collect();
    weights.sort_by_key(|scalar| scalar.kind_and_payload());
    assert_eq!(weights, [10, 20, 30, 40].map(Scalar::Count));
}
