//! Writing and reading back: stored sets, rows and texts.

use generate::sets::{any_automaton, any_sizes, automaton, small_sizes, tagged_sizes};
use generate::{documents, lists, set_bytes, texts, Random};
use reference::limits::{MAX_ROWS, ROW_CELLS};
use reference::stored::check_with_form;
use reference::table::TableBuilder;
use reference::{check_automaton, check_document, check_names, read_term, write_term, Document, Form};

#[test]
fn a_stored_set_decodes_to_what_was_encoded() {
    for seed in 0..2000 {
        let random = &mut Random::new(seed);
        let sizes = any_sizes(random);
        let automaton = any_automaton(random, &sizes);
        assert_eq!(check_automaton(&automaton.encode()), Ok(automaton.clone()));
        for form in Form::ALL.into_iter().filter(|&form| form >= automaton.shortest_form()) {
            assert_eq!(check_automaton(&automaton.encode_in(form)), Ok(automaton.clone()), "{form:?}");
        }
    }
}

#[test]
fn seeded_sets_have_all_forms_and_the_narrow_one_mostly() {
    let mut seen = [0; 3];
    for seed in 0..2000 {
        let random = &mut Random::new(seed);
        let sizes = any_sizes(random);
        let automaton = any_automaton(random, &sizes);
        let (form, decoded) =
            check_with_form(&set_bytes::stored(random, &automaton, 0)).expect("a sound set");
        assert_eq!(decoded, automaton);
        seen[form as usize] += 1;
    }
    let [narrow, wide, isolating] = seen;
    assert!(narrow > 700 && wide > 350 && isolating > 500, "{seen:?}");
}

#[test]
fn lent_rows_decode_to_what_was_encoded() {
    for seed in 0..2000 {
        let random = &mut Random::new(seed);
        let automaton = automaton(random, &small_sizes());
        let Some(document) = documents::document(random, &automaton, 300) else { continue };
        let checked = check_document(&automaton.encode(), &document.cells());
        assert_eq!(checked, Ok((automaton, document)));
    }
}

/// The same tree's table with rows in first-finishing order.
fn in_finishing_order(document: &Document) -> Document {
    fn add(document: &Document, row: usize, table: &mut TableBuilder) -> usize {
        let mut row = document.rows[row].clone();
        for child in &mut row.children {
            *child = add(document, *child, table);
        }
        table.place(row).expect("no more rows than before")
    }
    let mut table = TableBuilder::with_limit(document.rows.len());
    add(document, document.last(), &mut table);
    table.finish()
}

/// The writer knows one spelling of zero, and the reader takes either.
#[test]
fn loads_are_written_back_with_the_zeros_made_one() {
    let (mut changed, mut unchanged) = (0, 0);
    for seed in 0..3000 {
        let random = &mut Random::new(seed);
        let automaton = automaton(random, &tagged_sizes());
        let set = automaton.encode();
        let names = check_names(b"", b"", automaton.arities.len()).expect("empty lists are sound");
        let Some(text) = texts::of_loads(random, &automaton, &names) else { continue };
        let text = String::from_utf8(text).expect("letters, digits and marks");
        let document = read_term(&set, b"", b"", text.as_bytes(), ROW_CELLS * MAX_ROWS).expect("reads");
        assert!(check_document(&set, &document.cells()).is_ok(), "{text}");
        let back = write_term(&set, b"", b"", &document.cells(), text.len()).expect("as many bytes");
        let made_one = text.replace("~8000000000000000", "~0000000000000000");
        assert_eq!(String::from_utf8(back), Ok(made_one.clone()));
        *(if made_one == text { &mut unchanged } else { &mut changed }) += 1;
    }
    assert!(changed > 300 && unchanged > 300, "{changed} changed, {unchanged} unchanged");
}

#[test]
fn reading_undoes_writing_with_the_same_numbers_where_rows_are_in_order() {
    let (mut in_order, mut reordered) = (0, 0);
    for seed in 0..3000 {
        let random = &mut Random::new(seed);
        let automaton = automaton(random, &small_sizes());
        let set = automaton.encode();
        let Some(document) = documents::document(random, &automaton, 30) else { continue };
        let (site, built_in) = lists::both(random, automaton.arities.len(), 0);
        let names = check_names(&site, &built_in, automaton.arities.len());
        names.expect("sound lists show no name twice");
        let Ok(text) = write_term(&set, &site, &built_in, &document.cells(), 20_000) else { continue };
        let back = read_term(&set, &site, &built_in, &text, ROW_CELLS * MAX_ROWS).expect("reads back");
        let expected = in_finishing_order(&document);
        assert_eq!(back, expected);
        *(if expected == document { &mut in_order } else { &mut reordered }) += 1;
        let space = text.len();
        assert!(write_term(&set, &site, &built_in, &document.cells(), space).is_ok());
        let refused = write_term(&set, &site, &built_in, &document.cells(), space - 1);
        assert_eq!(refused.unwrap_err().number, 68);
    }
    assert!(in_order > 300 && reordered > 300, "{in_order} in order, {reordered} reordered");
}
