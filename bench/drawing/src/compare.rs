//! Whether all programs give the same for a case.
use crate::cases::Case;
use crate::desk::Desk;
use crate::{before, plain, probe, proved, Drawn};

/// The union is accepted.
fn accepted(case: &Case) {
    let libraries = [Some(proved::LIBRARY), before::LIBRARY];
    for library in libraries.into_iter().flatten() {
        let number = (library.check)(case);
        assert_eq!(number, 0, "{}: the union is refused", case.name);
    }
}

/// sqlite3, if it ends in time, has the answers that were drawn; where the list was too short, it has more than fit. Gives the seconds that
/// its process took.
pub fn as_sqlite(case: &Case, drawn: Drawn, list: &[u8], desk: &Desk, limit: f64) -> Option<f64> {
    let (bytes, count, seconds) = desk.answers(case, limit)?;
    if drawn.number == 0 {
        assert_eq!(drawn.count, count, "{}: sqlite3 differs", case.name);
        let same = list[..bytes.len()] == bytes;
        assert!(same, "{}: sqlite3's list differs", case.name);
    } else {
        let fits = bytes.len() <= case.list;
        assert!(!fits, "{}: sqlite3's list fits", case.name);
    }
    Some(seconds)
}

/// The libraries and the plain program give the same; what was in the lists before differs, so that a byte that isn't written is seen. So
/// does sqlite3. Gives what is drawn. For cases on which all of them end.
pub fn compare(case: &Case, desk: &Desk) -> Drawn {
    accepted(case);
    let (mut ours, mut theirs) = (vec![1; case.list], vec![2; case.list]);
    let drawn = (proved::LIBRARY.answer)(case, &mut ours);
    let mut others: Vec<(&str, fn(&Case, &mut [u8]) -> Drawn)> = vec![("plain", plain::answer)];
    others.extend(before::LIBRARY.map(|library| ("the earlier library", library.answer)));
    for (name, answer) in others {
        theirs.fill(2);
        assert_eq!(drawn, answer(case, &mut theirs), "{}: {name} differs", case.name);
        assert!(ours == theirs, "{}: {name}: the lists differ", case.name);
    }
    desk.load(case);
    as_sqlite(case, drawn, &ours, desk, f64::INFINITY);
    drawn
}

/// What the plain program and, each if it ends in time, the library and the earlier one give is the same. Gives the list, and whether these
/// two end.
pub fn compare_in_time(case: &Case, limit: f64) -> (Drawn, Vec<u8>, [bool; 2]) {
    accepted(case);
    let mut list = vec![2; case.list];
    let drawn = plain::answer(case, &mut list);
    let plain = probe::Outcome::of(drawn, &list);
    let ends = ["library", "before"].map(|which| {
        let other = probe::ends(which, case, limit);
        assert!(
            other.is_none_or(|other| other == plain),
            "{}: the {which} differs",
            case.name
        );
        other.is_some()
    });
    (drawn, list, ends)
}
