//! The checks of a set and of a table.

use bench::baseline::{set, table};
use bench::measure::Table;
use cidhomba::{check_automaton, check_document};
use generate::{documents, sets, Random};
use reference::examples::set_e;

pub fn measure() {
    let table = Table::open("The checks");
    let largest = |sizes| sets::automaton(&mut Random::new(1), &sizes);
    let (narrow, wide) = (largest(sets::largest_narrow_sizes()), largest(sets::largest_sizes()));
    let mut forgetting = wide.clone();
    sets::forget_some(&mut Random::new(2), &mut forgetting);
    for (set, kind) in
        [(narrow, "set"), (wide, "wide set"), (forgetting, "set that forgets, 14 bytes a rule,")]
    {
        let bytes = set.encode();
        assert!(check_automaton(&bytes).is_ok() && set::read(&bytes).is_ok());
        let input = format!("{kind} of {} rules", set.rules.len());
        table.row(&input, || check_automaton(&bytes), || set::read(&bytes).is_ok());
    }
    let set = set_e().encode();
    for rows in [127, 255, 511, 1023] {
        let cells = documents::broad(&mut Random::new(1), &set_e(), rows).expect("E has leaves").cells();
        let rust = || set::read(&set).and_then(|set| table::read(&set, &cells)).map(|rows| rows.len());
        assert_eq!(check_document(&set, &cells), Ok(()));
        assert_eq!(rust(), Ok(rows));
        table.row(&format!("table of {rows} rows"), || check_document(&set, &cells), rust);
    }
}
