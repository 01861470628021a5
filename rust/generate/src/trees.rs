//! All small trees, for tests that search through them.

use reference::brute_force::Tree;
use reference::{Document, Row, Scalar};

use crate::documents::thinned;

/// Every tree of at most so many levels with bare leaves.
pub fn all(arities: &[u8], levels: usize) -> Vec<Tree> {
    if levels == 0 {
        return Vec::new();
    }
    let below = all(arities, levels - 1);
    let mut trees = Vec::new();
    for (symbol, &arity) in arities.iter().enumerate() {
        for children in all_lists(&below, usize::from(arity)) {
            trees.push(Tree { symbol, scalar: Scalar::Bare, children });
        }
    }
    trees
}

/// Every list of so many items, in the order of the items.
pub(crate) fn all_lists<T: Clone>(items: &[T], length: usize) -> Vec<Vec<T>> {
    if length == 0 {
        return vec![Vec::new()];
    }
    let mut lists = Vec::new();
    for list in all_lists(items, length - 1) {
        for item in items {
            lists.push([&list[..], std::slice::from_ref(item)].concat());
        }
    }
    lists
}

/// A sound table of a tree.
pub fn table_of(tree: &Tree) -> Document {
    fn add(tree: &Tree, rows: &mut Vec<Row>) -> usize {
        let children = tree.children.iter().map(|child| add(child, rows)).collect();
        rows.push(Row { symbol: tree.symbol, children, scalar: tree.scalar });
        rows.len() - 1
    }
    let mut rows = Vec::new();
    add(tree, &mut rows);
    thinned(&rows)
}
