//! Spaces lent to the library: filled with junk or with what a test chooses, with guards on both sides that no call may
//! touch.

/// Elements on each side of a space. Odd, so that spaces of bytes start at odd addresses too.
const GUARD: usize = 33;

/// An element of a space.
pub trait Element: Copy + PartialEq + Default + std::fmt::Debug {
    /// The junk at a place: never 0 for long, and not the same from one element to the next.
    fn junk(place: usize) -> Self;
}

impl Element for u8 {
    fn junk(place: usize) -> u8 {
        (place.wrapping_mul(167) + 91) as u8
    }
}

impl Element for u16 {
    fn junk(place: usize) -> u16 {
        (place.wrapping_mul(40_503) + 31_337) as u16
    }
}

/// A space to lend, and what it holds before the call: junk, unless a test chooses something else.
pub struct Lent<T> {
    elements: Vec<T>,
    before: Vec<T>,
}

impl<T: Element> Lent<T> {
    /// A space of so many elements, filled with junk.
    pub fn of_length(length: usize) -> Lent<T> {
        Lent::holding((GUARD..GUARD + length).map(T::junk).collect())
    }

    /// A space that holds these elements before the call.
    pub fn holding(before: Vec<T>) -> Lent<T> {
        let end = GUARD + before.len();
        let (front, back) = ((0..GUARD).map(T::junk), (end..end + GUARD).map(T::junk));
        Lent { elements: front.chain(before.iter().copied()).chain(back).collect(), before }
    }

    /// The part that is lent.
    pub fn space(&mut self) -> &mut [T] {
        let end = self.elements.len() - GUARD;
        &mut self.elements[GUARD..end]
    }

    pub fn contents(&self) -> &[T] {
        &self.elements[GUARD..self.elements.len() - GUARD]
    }

    /// What the space must hold if a call writes these elements at its front and nothing else.
    pub fn with_front(&self, front: &[T]) -> Vec<T> {
        [front, &self.before[front.len()..]].concat()
    }

    /// What the space must hold if a call fills it with zeros.
    pub fn zeros(&self) -> Vec<T> {
        vec![T::default(); self.contents().len()]
    }

    /// Whether both guards hold what they held before the call.
    pub fn guards_are_untouched(&self) -> bool {
        let inner_end = self.elements.len() - GUARD;
        (0..GUARD).chain(inner_end..self.elements.len()).all(|at| self.elements[at] == T::junk(at))
    }
}

#[cfg(test)]
mod tests {
    use super::*;

    #[test]
    fn a_write_inside_shows_and_one_outside_is_caught() {
        for length in [0, 1, 100] {
            let mut lent: Lent<u8> = Lent::of_length(length);
            assert_eq!(lent.space().len(), length);
            assert_eq!(lent.contents(), lent.with_front(&[]));
            lent.space().fill(0);
            assert_eq!(lent.contents(), lent.zeros());
            assert!(lent.guards_are_untouched());
            for at in [GUARD - 1, GUARD + length] {
                let mut lent: Lent<u8> = Lent::of_length(length);
                lent.elements[at] ^= 1;
                assert!(!lent.guards_are_untouched());
            }
        }
    }

    #[test]
    fn a_space_holds_what_was_chosen_and_its_guards_are_junk() {
        let mut lent = Lent::holding(vec![7u16; 5]);
        assert_eq!(lent.space(), [7; 5]);
        assert!(lent.guards_are_untouched());
        assert_eq!(lent.with_front(&[1, 2]), [1, 2, 7, 7, 7]);
    }
}
