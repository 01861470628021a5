//! The C interface (`include/cidhomba.h`), with slices lent whole: each function answers the library's word.
//!
//! A slice passes as a pointer and a count of elements. The library keeps no pointer past a call, reads and
//! writes nothing outside the slices, and writes only to those that are lent mutably; so every call below is sound.
//!
//! ```
//! use cidhomba::{interface, word};
//!
//! let set = include_bytes!("../../../examples/e.set");
//! assert_eq!(interface::check_automaton(set), 0);
//! assert_eq!(word::parts(interface::check_automaton(&set[..58])), Err((3, 0)));
//! ```

extern "C" {
    fn cidhomba_check_automaton(set: *const u8, set_length: usize) -> u64;
    fn cidhomba_check_document(
        set: *const u8,
        set_length: usize,
        rows: *const u16,
        rows_length: usize,
    ) -> u64;
    fn cidhomba_check_run(
        set: *const u8,
        set_length: usize,
        rows: *const u16,
        rows_length: usize,
        run: *const u16,
        run_length: usize,
    ) -> u64;
    fn cidhomba_membership(
        set: *const u8,
        set_length: usize,
        rows: *const u16,
        rows_length: usize,
        work: *mut u16,
        work_length: usize,
        run: *mut u16,
        run_length: usize,
    ) -> u64;
    fn cidhomba_union(
        first: *const u8,
        first_length: usize,
        second: *const u8,
        second_length: usize,
        out: *mut u8,
        out_length: usize,
    ) -> u64;
    fn cidhomba_product(
        first: *const u8,
        first_length: usize,
        second: *const u8,
        second_length: usize,
        out: *mut u8,
        out_length: usize,
    ) -> u64;
    fn cidhomba_widen_states(set: *const u8, set_length: usize, out: *mut u8, out_length: usize) -> u64;
    fn cidhomba_narrow_states(set: *const u8, set_length: usize, out: *mut u8, out_length: usize) -> u64;
    fn cidhomba_widen_rules(set: *const u8, set_length: usize, out: *mut u8, out_length: usize) -> u64;
    fn cidhomba_narrow_rules(set: *const u8, set_length: usize, out: *mut u8, out_length: usize) -> u64;
    fn cidhomba_witness(set: *const u8, set_length: usize, rows: *mut u16, rows_length: usize) -> u64;
    fn cidhomba_read_term(
        set: *const u8,
        set_length: usize,
        site: *const u8,
        site_length: usize,
        built_in: *const u8,
        built_in_length: usize,
        text: *const u8,
        text_length: usize,
        rows: *mut u16,
        rows_length: usize,
    ) -> u64;
    fn cidhomba_write_term(
        set: *const u8,
        set_length: usize,
        site: *const u8,
        site_length: usize,
        built_in: *const u8,
        built_in_length: usize,
        rows: *const u16,
        rows_length: usize,
        text: *mut u8,
        text_length: usize,
    ) -> u64;
    fn cidhomba_read_json(
        keys: *const u8,
        keys_length: usize,
        text: *const u8,
        text_length: usize,
        rows: *mut u16,
        rows_length: usize,
    ) -> u64;
}

/// 0 for a sound set.
pub fn check_automaton(set: &[u8]) -> u64 {
    // SAFETY: pointer and count are those of a slice that lives through the call.
    unsafe { cidhomba_check_automaton(set.as_ptr(), set.len()) }
}

/// 0 for a sound table.
pub fn check_document(set: &[u8], rows: &[u16]) -> u64 {
    // SAFETY: pointers and counts are those of slices that live through the call.
    unsafe { cidhomba_check_document(set.as_ptr(), set.len(), rows.as_ptr(), rows.len()) }
}

/// 0 for a run that passes.
pub fn check_run(set: &[u8], rows: &[u16], run: &[u16]) -> u64 {
    // SAFETY: pointers and counts are those of slices that live through the call.
    unsafe { cidhomba_check_run(set.as_ptr(), set.len(), rows.as_ptr(), rows.len(), run.as_ptr(), run.len()) }
}

/// 0 for no, the number of steps for yes.
pub fn membership(set: &[u8], rows: &[u16], work: &mut [u16], run: &mut [u16]) -> u64 {
    // SAFETY: pointers and counts are those of slices that live through the call; the two that may be
    // written are lent mutably.
    unsafe {
        cidhomba_membership(
            set.as_ptr(),
            set.len(),
            rows.as_ptr(),
            rows.len(),
            work.as_mut_ptr(),
            work.len(),
            run.as_mut_ptr(),
            run.len(),
        )
    }
}

/// The length written.
pub fn union(first: &[u8], second: &[u8], out: &mut [u8]) -> u64 {
    // SAFETY: pointers and counts are those of slices that live through the call; `out` is lent mutably.
    unsafe {
        cidhomba_union(
            first.as_ptr(),
            first.len(),
            second.as_ptr(),
            second.len(),
            out.as_mut_ptr(),
            out.len(),
        )
    }
}

/// The length written.
pub fn product(first: &[u8], second: &[u8], out: &mut [u8]) -> u64 {
    // SAFETY: pointers and counts are those of slices that live through the call; `out` is lent mutably.
    unsafe {
        cidhomba_product(
            first.as_ptr(),
            first.len(),
            second.as_ptr(),
            second.len(),
            out.as_mut_ptr(),
            out.len(),
        )
    }
}

/// The length written.
pub fn widen_states(set: &[u8], out: &mut [u8]) -> u64 {
    // SAFETY: pointers and counts are those of slices that live through the call; `out` is lent mutably.
    unsafe { cidhomba_widen_states(set.as_ptr(), set.len(), out.as_mut_ptr(), out.len()) }
}

/// The length written.
pub fn narrow_states(set: &[u8], out: &mut [u8]) -> u64 {
    // SAFETY: pointers and counts are those of slices that live through the call; `out` is lent mutably.
    unsafe { cidhomba_narrow_states(set.as_ptr(), set.len(), out.as_mut_ptr(), out.len()) }
}

/// The length written.
pub fn widen_rules(set: &[u8], out: &mut [u8]) -> u64 {
    // SAFETY: pointers and counts are those of slices that live through the call; `out` is lent mutably.
    unsafe { cidhomba_widen_rules(set.as_ptr(), set.len(), out.as_mut_ptr(), out.len()) }
}

/// The length written.
pub fn narrow_rules(set: &[u8], out: &mut [u8]) -> u64 {
    // SAFETY: pointers and counts are those of slices that live through the call; `out` is lent mutably.
    unsafe { cidhomba_narrow_rules(set.as_ptr(), set.len(), out.as_mut_ptr(), out.len()) }
}

/// 0 for dead, rows + 65536 * levels for live.
pub fn witness(set: &[u8], rows: &mut [u16]) -> u64 {
    // SAFETY: pointers and counts are those of slices that live through the call; `rows` is lent mutably.
    unsafe { cidhomba_witness(set.as_ptr(), set.len(), rows.as_mut_ptr(), rows.len()) }
}

/// Rows written.
pub fn read_term(set: &[u8], site: &[u8], built_in: &[u8], text: &[u8], rows: &mut [u16]) -> u64 {
    // SAFETY: pointers and counts are those of slices that live through the call; `rows` is lent mutably.
    unsafe {
        cidhomba_read_term(
            set.as_ptr(),
            set.len(),
            site.as_ptr(),
            site.len(),
            built_in.as_ptr(),
            built_in.len(),
            text.as_ptr(),
            text.len(),
            rows.as_mut_ptr(),
            rows.len(),
        )
    }
}

/// Bytes written.
pub fn write_term(set: &[u8], site: &[u8], built_in: &[u8], rows: &[u16], text: &mut [u8]) -> u64 {
    // SAFETY: pointers and counts are those of slices that live through the call; `text` is lent mutably.
    unsafe {
        cidhomba_write_term(
            set.as_ptr(),
            set.len(),
            site.as_ptr(),
            site.len(),
            built_in.as_ptr(),
            built_in.len(),
            rows.as_ptr(),
            rows.len(),
            text.as_mut_ptr(),
            text.len(),
        )
    }
}

/// Rows written.
pub fn read_json(keys: &[u8], text: &[u8], rows: &mut [u16]) -> u64 {
    // SAFETY: pointers and counts are those of slices that live through the call; `rows` is lent mutably.
    unsafe {
        cidhomba_read_json(
            keys.as_ptr(),
            keys.len(),
            text.as_ptr(),
            text.len(),
            rows.as_mut_ptr(),
            rows.len(),
        )
    }
}
