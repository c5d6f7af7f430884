//! Megabytes per second of the proved readers beside plain Rust ones, on the same sheet in the same run.
//!
//! What the two readers give is compared first. Then they take turns: a turn reads the sheet many times, the best turn counts. The
//! table that is read into is not cleared in between. Nothing about time is asserted.
use crate::sheets::{self, Order};
use crate::{plain, proved, Read, MOST_FACTS, MOST_MEMBERS, PARTNERS, ROW};
use std::hint::black_box;
use std::time::Instant;

const TURNS: usize = 400;
const READS_PER_TURN: usize = 20;

type Reader = Box<dyn Fn(&[u8], &mut [u64]) -> Read>;

/// The two readers of one kind of sheet.
struct Readers {
    proved: Reader,
    plain: Reader,
    /// how many words the table has, and how many of them a fact or a member takes
    table: usize,
    stride: usize,
}

/// How many sheets were compared: read by both, and refused by both.
#[derive(Default)]
struct Compared {
    read: usize,
    refused: usize,
}

impl Readers {
    fn of_facts() -> Readers {
        Readers {
            proved: Box::new(|sheet, table| proved::read_facts(sheet, &PARTNERS, table)),
            plain: Box::new(|sheet, table| plain::read_facts(sheet, &PARTNERS, table)),
            table: MOST_FACTS,
            stride: 1,
        }
    }

    fn of_unions(arity: usize) -> Readers {
        Readers {
            proved: Box::new(move |sheet, table| {
                proved::read_union(sheet, &PARTNERS, arity, table)
            }),
            plain: Box::new(move |sheet, table| plain::read_union(sheet, &PARTNERS, arity, table)),
            table: ROW * MOST_MEMBERS,
            stride: ROW,
        }
    }

    /// Both give the same number and count and the same words, on the sheet and on the sheet damaged. What was in the two tables
    /// before differs, so that a word that isn't written is seen.
    fn compare(&self, sheet: &[u8], compared: &mut Compared) {
        let (mut ours, mut theirs) = (vec![1; self.table], vec![2; self.table]);
        sheets::damaged(sheet, &mut |sheet| {
            let read = (self.proved)(sheet, &mut ours);
            assert_eq!(read, (self.plain)(sheet, &mut theirs), "the readers differ");
            let words = self.stride * read.count;
            assert!(ours[..words] == theirs[..words], "the tables differ");
            ours[..words].fill(1);
            theirs[..words].fill(2);
            match read.number {
                0 => compared.read += 1,
                _ => compared.refused += 1,
            }
        });
    }

    /// Seconds for the best turn of the proved reader, and of the plain one.
    fn times(&self, sheet: &[u8]) -> [f64; 2] {
        let mut table = vec![0; self.table];
        let mut best = [f64::INFINITY; 2];
        for _ in 0..TURNS {
            for (reader, best) in [&self.proved, &self.plain].into_iter().zip(&mut best) {
                let begin = Instant::now();
                for _ in 0..READS_PER_TURN {
                    black_box(reader(black_box(sheet), black_box(&mut table)));
                }
                *best = best.min(begin.elapsed().as_secs_f64());
            }
        }
        best
    }

    /// One line of the table.
    fn report(&self, name: &str, sheet: &[u8]) {
        let [proved, plain] = self.times(sheet);
        let speed = |seconds: f64| (sheet.len() * READS_PER_TURN) as f64 / seconds / 1e6;
        println!(
            "{name:<14} {:>7} {:>8.0} {:>8.0} {:>13.2}",
            sheet.len(),
            speed(proved),
            speed(plain),
            plain / proved
        );
    }
}

pub fn run() {
    let facts = |order| sheets::many_facts(MOST_FACTS, order);
    let union = |order| sheets::large_union(MOST_MEMBERS, order);
    let (of_facts, of_unions) = (Readers::of_facts(), Readers::of_unions(4));

    let mut compared = Compared::default();
    for count in [0, MOST_FACTS, MOST_FACTS + 1] {
        let sheet = sheets::many_facts(count, Order::Drawn);
        of_facts.compare(&sheet, &mut compared);
    }
    for count in [0, MOST_MEMBERS, MOST_MEMBERS + 1] {
        let sheet = sheets::large_union(count, Order::Drawn);
        of_unions.compare(&sheet, &mut compared);
    }
    let mut draw = sheets::Draw::new();
    for small in 0..100 {
        let sheet = sheets::small_union(&mut draw, small % 5);
        for arity in 0..5 {
            Readers::of_unions(arity).compare(&sheet, &mut compared);
        }
    }
    let Compared { read, refused } = compared;
    println!("compared first: {read} sheets read alike, {refused} refused alike");

    println!("MB/s, best of {TURNS} turns of {READS_PER_TURN} reads; tables are not cleared between reads");
    println!(
        "{:<14} {:>7} {:>8} {:>8} {:>13}",
        "sheet", "bytes", "proved", "plain", "proved/plain"
    );
    of_facts.report("facts", &facts(Order::Drawn));
    of_facts.report("facts, sorted", &facts(Order::Sorted));
    of_unions.report("union", &union(Order::Drawn));
    of_unions.report("union, sorted", &union(Order::Sorted));
}
