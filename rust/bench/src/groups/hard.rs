//! Judging where the children's annotations can be chosen in many ways: memories that meet, rules that never hold, and
//! choices that are all refused in the end. They are measured against Rust that remembers what it has joined, and some
//! of the smaller ones against Rust that tries every choice too.

use bench::baseline::{membership, remembering};
use bench::measure::Table;
use cidhomba::MAX_ROOM;
use generate::crowded_leaves::{crowded_document, crowded_set};
use generate::picked_leaves::{picked_document, picking_set, Root};
use generate::three_rows::{three_row_document, three_row_set};
use generate::towers;
use reference::{Automaton, Document};

use super::judging::{judged_against, Judge};

/// Levels of rows with four children. With each more, trying every choice takes 16 times as long: 5 take seconds, and 6
/// more than half a minute.
const LEVELS: [usize; 4] = [3, 4, 5, 6];
/// The levels that a judge that tries every choice is asked for.
const FEW_LEVELS: [usize; 2] = [2, 3];
/// Rows of a tower that forgets; trying every choice takes a tenth of a second and more for each.
const FORGETTING_ROWS: usize = 130;
const FEW_FORGETTING_ROWS: usize = 6;

pub fn measure() {
    let remembered = Inputs::beside(remembering::membership, "remembers what it has joined");
    remembered.chains_and_doublings();
    remembered.fourfold(&LEVELS);
    remembered.crowded();
    remembered.forgetting(FORGETTING_ROWS);
    remembered.clashing_late();
    remembered.refused_at_the_end();
    remembered.three_rows();
    measure_every_choice();
}

/// The lines for a library that tries every choice, by name only: without those that would take it minutes.
pub fn measure_few() {
    let remembered = Inputs::beside(remembering::membership, "remembers what it has joined");
    remembered.chains_and_doublings();
    remembered.fourfold(&FEW_LEVELS);
    remembered.crowded();
    remembered.forgetting(FEW_FORGETTING_ROWS);
    remembered.clashing_late();
    measure_every_choice();
}

fn measure_every_choice() {
    let tried = Inputs::beside(membership::membership, "tries every choice");
    tried.fourfold(&FEW_LEVELS);
    tried.crowded();
}

/// A table of hard inputs, all with room for 4,096 annotations, beside one judge.
struct Inputs {
    table: Table,
    judge: Judge,
}

impl Inputs {
    fn beside(judge: Judge, what_it_does: &str) -> Inputs {
        let title =
            format!("Judging hard inputs, with room for 4,096 annotations, against Rust that {what_it_does}");
        Inputs { table: Table::open(&title), judge }
    }

    fn judged(&self, input: &str, (set, document): (Automaton, Document)) {
        judged_against(self.judge, &self.table, input, (&set, &document), MAX_ROOM);
    }

    /// Rows with a tag each, the last of which carry theirs or not: as many of them as there is room for.
    fn chains_and_doublings(&self) {
        for (shape, width) in [("a chain", 1), ("a doubling tree", 2)] {
            for (tags, free, annotations) in [(16, 10, "2,052"), (13, 11, "4,096")] {
                let input =
                    format!("{tags} tags in {shape}, {free} carried or not: {annotations} annotations");
                self.judged(&input, towers::of_width(width, tags, free));
            }
        }
    }

    fn fourfold(&self, levels: &[usize]) {
        for &levels in levels {
            let input = format!("four children whose memories meet, {levels} levels");
            self.judged(&input, towers::fourfold(levels));
        }
    }

    fn crowded(&self) {
        let (set, document) = (crowded_set(), crowded_document());
        let rows = document.rows.len();
        let input = format!("leaves in 240 states, 750 of 993 rules that never hold, {rows} rows");
        self.judged(&input, (set, document));
    }

    fn forgetting(&self, rows: usize) {
        let input = format!("four children whose memories meet, {rows} levels, by a set that forgets");
        self.judged(&input, towers::forgetting(rows));
    }

    /// The first three children leave 57,600 memories, and each of the fourth's clashes with all of them.
    fn clashing_late(&self) {
        let input = "22 rows: the fourth child clashes with the second";
        self.judged(input, (picking_set(Root::ClashingLate), picked_document(2)));
    }

    fn refused_at_the_end(&self) {
        let input = "22 rows: 3 billion choices, all refused by the root's tag";
        self.judged(input, (picking_set(Root::WithTheFirstTag), picked_document(2)));
        let input = "the same, let in by another rule";
        self.judged(input, (picking_set(Root::WithAnotherRule), picked_document(2)));
    }

    fn three_rows(&self) {
        let input = "3 rows: 65,536 memories of two children, all different";
        self.judged(input, (three_row_set(1), three_row_document()));
    }
}
