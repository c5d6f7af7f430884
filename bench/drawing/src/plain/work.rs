//! What the search counts: nothing where time is measured; where bad sheets are looked for, about how long it would take.

/// About so many nanoseconds for a fact that is tried, and for a range or a tuple that is looked up.
pub const TRIED: u64 = 9;
pub const LOOKED_UP: u64 = 40;

pub trait Work {
    /// A member's search begins.
    fn member(&mut self);

    /// So much is to be done; whether the search is to end before that. What it has drawn is then of no use.
    fn ends(&mut self, more: u64) -> bool;
}

pub struct Uncounted;

impl Work for Uncounted {
    #[inline(always)]
    fn member(&mut self) {}

    #[inline(always)]
    fn ends(&mut self, _: u64) -> bool {
        false
    }
}

/// How much may still be done, and how much was for each member.
#[cfg(feature = "climb")]
pub struct Counted {
    pub left: u64,
    pub done: Vec<u64>,
}

#[cfg(feature = "climb")]
impl Work for Counted {
    fn member(&mut self) {
        self.done.push(0);
    }

    fn ends(&mut self, more: u64) -> bool {
        let more = more.min(self.left);
        self.left -= more;
        if let Some(done) = self.done.last_mut() {
            *done += more;
        }
        self.left == 0
    }
}
