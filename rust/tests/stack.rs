//! The deepest search over the largest tables stays within the stack that header and README name.
use takwishan::{answer, check, explain, rename, write};

/// Less than a megabyte, for the call and for what calls it.
const STACK: usize = 1_000_000;

/// Which objects begin a chain of eight: v0 of P(v0,v1), .., P(v7,v8), where P is role 1.
fn question() -> Vec<u8> {
    let mut bytes = vec![0x18, 0, 0, 0];
    for v in 0..8u64 {
        let atom = 1 << 47 | 1 << 34 | v << 17 | (v + 1);
        bytes.extend(&atom.to_be_bytes()[2..]);
    }
    bytes
}

/// P from each object to the next, in a ring.
fn facts(count: u64) -> Vec<u8> {
    let fact = |i: u64| 1 << 47 | 1 << 32 | i << 16 | (i + 1) % count;
    (0..count).flat_map(|i| fact(i).to_be_bytes()[2..].to_vec()).collect()
}

/// The union is written, checked and drawn with, an answer explained, and the question compared: all that a call may need.
fn drawn(count: u64) -> Vec<u8> {
    let mut list = vec![0; 2 * count as usize];
    let question = question();
    let union = write(&[], &question).expect("merges lead to fewer than 512");
    assert_eq!(check(&[], &question, &union), Ok(()));
    let targets = rename(&question, &question)
        .expect("it is sound")
        .expect("it is alike to itself");
    assert!(targets[..9].iter().copied().eq(0..9));
    assert_eq!(
        answer(&[], &question, &union, &facts(count), &mut list),
        Ok(count as usize)
    );
    assert_eq!(explain(&[], &question, &union, &facts(count), &[0, 7]), Ok(vec![]));
    list
}

#[test]
fn full_sheets_in_less_than_a_megabyte() {
    let call = || drawn(10_000);
    let thread = std::thread::Builder::new().stack_size(STACK).spawn(call);
    let list = thread.expect("a thread").join().expect("it has room");
    let objects: Vec<u16> = list.chunks(2).map(|o| u16::from_be_bytes([o[0], o[1]])).collect();
    assert!(objects.iter().copied().eq(0..10_000));
}
