//! Structs that are lent to the archive, with margins, to see what a call
//! leaves of them. What it may not touch is compared, and a difference is a
//! panic.

use crate::reference::Refusal;

/// What lent memory holds before a call that fills it.
pub const FILL: u64 = 0xa5a5_a5a5_a5a5_a5a5;

/// So many words, between two more.
#[repr(C)]
#[derive(Clone, Copy)]
pub struct Lent<const N: usize> {
    before: u64,
    words: [u64; N],
    after: u64,
    given: [u64; N],
}

impl<const N: usize> Lent<N> {
    pub fn new(words: [u64; N]) -> Self {
        Lent {
            before: FILL,
            words,
            after: FILL,
            given: words,
        }
    }

    /// To be filled.
    pub fn unused() -> Self {
        Lent::new([FILL; N])
    }

    pub fn lend(&mut self) -> *mut [u64; N] {
        &mut self.words
    }

    /// What a call has written.
    pub fn filled(&self) -> [u64; N] {
        assert!(
            self.before == FILL && self.after == FILL,
            "a call wrote beside what it was lent"
        );
        self.words
    }

    /// Panics where a call has written anything.
    pub fn untouched(&self) {
        assert!(
            self.filled() == self.given,
            "an answer that fills nothing left its mark"
        );
    }

    /// What it held, and what a call has written.
    pub fn given_and_filled(&self) -> ([u64; N], [u64; N]) {
        (self.given, self.filled())
    }
}

/// Where an offset goes that a refusal names.
pub struct At(Lent<1>);

impl At {
    pub fn new() -> Self {
        At(Lent::unused())
    }

    pub fn lend(&mut self) -> *mut u64 {
        self.0.lend().cast()
    }

    /// The refusal of an answer, if it is one. Refusals 1 to 13 name an offset,
    /// and every other answer leaves it as it is.
    pub fn refusal(&self, answer: u32) -> Result<(), Refusal> {
        let [at] = self.0.filled();
        let named = (at != FILL).then_some(at as usize);
        assert!(
            named.is_some() == (1..=13).contains(&answer),
            "answer {answer} names {named:?}"
        );
        match answer {
            0 | 256.. => Ok(()),
            _ => Err(Refusal {
                number: u8::try_from(answer).expect("a refusal is at most 255"),
                at: named,
            }),
        }
    }
}

// ---- what is lent is looked at

#[cfg(test)]
mod tests {
    use super::*;

    #[test]
    fn what_stays_is_taken() {
        let mut lent = Lent::new([1, 2]);
        lent.lend();
        lent.untouched();
        assert_eq!(lent.filled(), [1, 2]);
        assert_eq!(At::new().refusal(0), Ok(()));
        assert_eq!(At::new().refusal(16), Err(Refusal::nowhere(16)));
    }

    #[test]
    fn an_offset_is_named() {
        let mut at = At::new();
        unsafe { *at.lend() = 0 };
        assert_eq!(at.refusal(1), Err(Refusal::at(1, 0)));
    }

    #[test]
    #[should_panic(expected = "left its mark")]
    fn an_answer_that_fills() {
        let mut lent = Lent::<2>::unused();
        unsafe { (*lent.lend())[1] = 0 };
        lent.untouched();
    }

    #[test]
    #[should_panic(expected = "beside what it was lent")]
    fn a_call_that_writes_beside() {
        let mut lent = Lent::<1>::unused();
        lent.after = 0;
        lent.filled();
    }

    #[test]
    #[should_panic(expected = "names None")]
    fn a_refusal_without_its_offset() {
        let _ = At::new().refusal(6);
    }

    #[test]
    #[should_panic(expected = "names Some(4)")]
    fn an_offset_where_none_is_named() {
        let mut at = At::new();
        unsafe { *at.lend() = 4 };
        let _ = at.refusal(14);
    }
}
