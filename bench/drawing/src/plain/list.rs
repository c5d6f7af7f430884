//! The answer list: records of one size, ascending, in lent bytes, with a gap where the last one was put in.

pub struct List<'a> {
    bytes: &'a mut [u8],
    size: usize,
    /// records before the gap, and behind it
    low: usize,
    high: usize,
    /// whether one did not fit
    pub full: bool,
}

impl<'a> List<'a> {
    pub fn over(bytes: &'a mut [u8], size: usize) -> List<'a> {
        List {
            bytes,
            size,
            low: 0,
            high: 0,
            full: false,
        }
    }

    pub fn count(&self) -> usize {
        self.low + self.high
    }

    fn record(&self, i: usize) -> u64 {
        let begin = if i < self.low {
            self.size * i
        } else {
            self.bytes.len() - self.size * (self.count() - i)
        };
        let record = &self.bytes[begin..][..self.size];
        record.iter().fold(0, |number, &byte| number << 8 | byte as u64)
    }

    /// Where the tuple stands, or where it would. The record that was put in last is looked at first.
    pub fn seek(&self, tuple: u64) -> Result<usize, usize> {
        let (mut from, mut end) = (0, self.count());
        if self.low > 0 {
            if self.record(self.low - 1) < tuple {
                from = self.low;
            } else {
                end = self.low - 1;
            }
        }
        while from < end {
            let middle = from + (end - from) / 2;
            if self.record(middle) < tuple {
                from = middle + 1;
            } else {
                end = middle;
            }
        }
        if from < self.count() && self.record(from) == tuple {
            Ok(from)
        } else {
            Err(from)
        }
    }

    /// Moves the gap to a place.
    fn move_gap(&mut self, place: usize) {
        let (size, upper) = (self.size, self.bytes.len() - self.size * self.high);
        if place < self.low {
            let moved = size * (self.low - place);
            self.bytes.copy_within(size * place..size * self.low, upper - moved);
        } else {
            let moved = size * (place - self.low);
            self.bytes.copy_within(upper..upper + moved, size * self.low);
        }
        (self.low, self.high) = (place, self.count() - place);
    }

    pub fn insert(&mut self, place: usize, tuple: u64) {
        if self.bytes.len() - self.size * self.count() < self.size {
            self.full = true;
            return;
        }
        self.move_gap(place);
        let bytes = tuple.to_be_bytes();
        let begin = self.size * self.low;
        self.bytes[begin..begin + self.size].copy_from_slice(&bytes[8 - self.size..]);
        self.low += 1;
    }

    /// The records one after another, zeros behind them; how many there are. All zeros if one did not fit.
    pub fn close(mut self) -> Option<usize> {
        if self.full {
            self.bytes.fill(0);
            return None;
        }
        self.move_gap(self.count());
        self.bytes[self.size * self.low..].fill(0);
        Some(self.low)
    }
}
