//! The set that demands the agreed export in JSON, and one for the export of uWSGI.

use reference::json_keys::{NUMBER, TEXT};
use reference::Automaton;

use crate::json_export::KEYS;
use crate::json_sets::Shape;

/// What was agreed of a server: its keys in their order, with the state that the set demands of each value.
const SERVER: [(&str, &str); 13] = [
    ("name", "text"),
    ("address", "text"),
    ("weight", "weight"),
    ("sessions", "number"),
    ("rate", "number"),
    ("bytes_in", "number"),
    ("bytes_out", "number"),
    ("limit", "number"),
    ("checks", "number"),
    ("downtime", "number"),
    ("load", "number"),
    ("status", "text"),
    ("pool", "pool"),
];

/// The set that demands the agreed shape. By its tag every server's pool is the export's; and a state of its own
/// stands on the weights.
pub fn agreed_set() -> Automaton {
    let mut shape = Shape::over(&KEYS);
    for target in ["pool", "text"] {
        shape.rule(TEXT, &[], target);
    }
    for target in ["weight", "number"] {
        shape.rule(NUMBER, &[], target);
    }
    shape.object(&SERVER, "server");
    shape.array("server", "servers");
    shape.object(&[("pool", "pool"), ("time", "number"), ("servers", "servers")], "export");
    shape.finish("export", &["pool"])
}

/// The keys that the set for uWSGI goes by.
pub const UWSGI_KEYS: [&str; 3] = ["subscriptions", "nodes", "weight"];

/// The set for the export of uWSGI's router: subscriptions with nodes, each of which has a weight, which is a number.
/// What else stands in an object is free, so that a key that joins neither hides a weight nor takes its place.
pub fn uwsgi_set() -> Automaton {
    let mut shape = Shape::over(&UWSGI_KEYS);
    shape.rule(NUMBER, &[], "weight");
    shape.anything();
    shape.object_with("weight", "weight", "node");
    shape.array("node", "nodes");
    shape.object_with("nodes", "nodes", "subscription");
    shape.array("subscription", "subscriptions");
    shape.object_with("subscriptions", "subscriptions", "export");
    shape.finish("export", &[])
}

#[cfg(test)]
mod tests {
    use super::*;
    use crate::export::Columns;
    use crate::json_export::{export_text, key_list, Layout};
    use reference::limits::{MAX_ROOM, MAX_ROWS, ROW_CELLS};
    use reference::membership::judge;
    use reference::{check_automaton, read_json, witness, Document};

    fn read(keys: &[&str], text: &str) -> Document {
        read_json(&key_list(keys), text.as_bytes(), ROW_CELLS * MAX_ROWS).expect("an export is read")
    }

    #[test]
    fn the_sets_are_sound_and_live() {
        for set in [agreed_set(), uwsgi_set()] {
            assert_eq!(check_automaton(&set.encode()), Ok(set.clone()));
            let space = ROW_CELLS * set.states.len();
            assert!(witness(&set.encode(), space).expect("tags are apart").is_some());
        }
    }

    #[test]
    fn only_the_agreed_columns_are_let_in() {
        for servers in [1, 2, 8, 30, 60] {
            for layout in [Layout::Compact, Layout::Pretty] {
                for (columns, expected) in
                    [(Columns::Agreed, true), (Columns::WithQueue, false), (Columns::SwappedOnce, false)]
                {
                    let document = read(&KEYS, &export_text(servers, columns, layout));
                    let judgement = judge(&agreed_set(), &document, MAX_ROOM).expect("there is room");
                    assert_eq!(judgement.is_yes(), expected, "{servers} servers");
                }
            }
        }
    }

    #[test]
    fn a_server_of_another_pool_is_turned_away_by_the_tag_alone() {
        let text = export_text(8, Columns::Agreed, Layout::Compact);
        let at = text.rfind("\"web\"").expect("the last server has a pool");
        let document = read(&KEYS, &format!("{}\"dns\"{}", &text[..at], &text[at + 5..]));
        assert!(!judge(&agreed_set(), &document, MAX_ROOM).expect("there is room").is_yes());
        let mut untagged = agreed_set();
        untagged.states.iter_mut().for_each(|state| state.tags = 0);
        assert!(judge(&untagged, &document, MAX_ROOM).expect("there is room").is_yes());
    }

    #[test]
    fn the_queue_is_turned_away_whether_its_key_is_listed_or_not() {
        let without_queue = &KEYS[..15];
        let text = export_text(8, Columns::WithQueue, Layout::Compact);
        let document = read(without_queue, &text);
        let mut set = agreed_set();
        set.arities.pop();
        assert_eq!(check_automaton(&set.encode()), Ok(set.clone()), "no rule speaks of the queue");
        assert!(!judge(&set, &document, MAX_ROOM).expect("there is room").is_yes());
        let agreed = read(without_queue, &export_text(8, Columns::Agreed, Layout::Compact));
        assert!(judge(&set, &agreed, MAX_ROOM).expect("there is room").is_yes());
    }
}
