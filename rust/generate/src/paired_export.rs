//! An export in JSON of servers that stand in pairs, side by side, each pair with its own cluster name; and the set that
//! demands it by forgetting the name where a pair is whole (source document 000, section 3, language D).

use reference::json_keys::{NUMBER, TEXT};
use reference::Automaton;

use crate::json_export::{bracketed, object, Layout};
use crate::json_sets::Shape;

/// The keys that the site lists.
pub const KEYS: [&str; 5] = ["pool", "servers", "name", "cluster", "weight"];

/// The set that demands pairs of servers: by its tag the two of a pair have one cluster, and where a pair is whole the tag
/// is forgotten. No number of tags could say that of all exports.
pub fn paired_set() -> Automaton {
    with_tags_forgotten(1)
}

/// The same set with nothing forgotten, so that all servers of an export must have one cluster.
pub fn strict_set() -> Automaton {
    with_tags_forgotten(0)
}

fn with_tags_forgotten(forgets: u16) -> Automaton {
    let mut shape = Shape::over(&KEYS);
    for target in ["cluster", "text"] {
        shape.rule(TEXT, &[], target);
    }
    shape.rule(NUMBER, &[], "number");
    shape.object(&[("name", "text"), ("cluster", "cluster"), ("weight", "number")], "server");
    shape.array_of_pairs("server", "servers", forgets);
    shape.object(&[("pool", "text"), ("servers", "servers")], "export");
    shape.finish("export", &["cluster"])
}

/// Which servers an export has.
#[derive(Clone, Copy, PartialEq, Eq)]
pub enum Servers {
    /// Pairs of one cluster each.
    Paired,
    /// The same, but the last pair has two cluster names.
    OnePairMixed,
    /// The same without the last server, so that their number is odd.
    OneMissing,
}

/// An export of so many pairs, a line for each member.
pub fn export_text(pairs: usize, servers: Servers) -> String {
    let last = 2 * pairs - 1;
    let count = if servers == Servers::OneMissing { last } else { last + 1 };
    let cluster = |server: usize| match servers {
        Servers::OnePairMixed if server == last => pairs + 1,
        _ => server / 2 + 1,
    };
    let member = |server: usize| {
        let fields = [
            ("name", format!("\"web{:02}\"", server + 1)),
            ("cluster", format!("\"cluster-{}\"", cluster(server))),
            ("weight", (10 * (1 + server % 3)).to_string()),
        ];
        object(&fields, Layout::Pretty, 2)
    };
    let all: Vec<String> = (0..count).map(member).collect();
    let members =
        [("pool", "\"web\"".to_string()), ("servers", bracketed("[", "]", &all, Layout::Pretty, 1))];
    object(&members, Layout::Pretty, 0) + "\n"
}

#[cfg(test)]
mod tests {
    use super::*;
    use crate::json_export::key_list;
    use reference::limits::{MAX_ROOM, MAX_ROWS, ROW_CELLS};
    use reference::membership::judge;
    use reference::stored::check_with_form;
    use reference::{read_json, witness, Form};

    fn is_let_in(set: &Automaton, text: &str) -> bool {
        let read = read_json(&key_list(&KEYS), text.as_bytes(), ROW_CELLS * MAX_ROWS);
        judge(set, &read.expect("an export is read"), MAX_ROOM).expect("there is room").is_yes()
    }

    #[test]
    fn the_sets_are_sound_and_live_and_differ_in_one_byte() {
        let (paired, strict) = (paired_set().encode(), strict_set().encode_in(Form::Isolating));
        assert_eq!(check_with_form(&paired), Ok((Form::Isolating, paired_set())));
        assert_eq!(check_with_form(&strict), Ok((Form::Isolating, strict_set())));
        assert_eq!(paired.iter().zip(&strict).filter(|(one, other)| one != other).count(), 1);
        assert!(witness(&paired, ROW_CELLS * MAX_ROWS).expect("tags are apart").is_some());
    }

    #[test]
    fn each_pair_has_a_cluster_of_its_own() {
        for pairs in [1, 2, 3, 4, 40] {
            for (servers, expected) in
                [(Servers::Paired, true), (Servers::OnePairMixed, false), (Servers::OneMissing, false)]
            {
                let text = export_text(pairs, servers);
                assert_eq!(is_let_in(&paired_set(), &text), expected, "{pairs} pairs");
                assert_eq!(is_let_in(&strict_set(), &text), expected && pairs == 1, "{pairs} pairs, strict");
            }
        }
    }

    /// A cluster may come again in another pair, but no server may stand outside of its pair.
    #[test]
    fn pairs_are_counted_from_the_end() {
        let text = export_text(4, Servers::Paired);
        assert!(is_let_in(&paired_set(), &text.replace("cluster-3", "cluster-1")));
        let shifted = text.replacen("cluster-1", "cluster-9", 1).replacen("cluster-4", "cluster-9", 1);
        assert!(!is_let_in(&paired_set(), &shifted));
    }
}
