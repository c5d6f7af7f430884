//! One version: the wrapper's, the header's, and that of the newest entry of CHANGELOG.md; and the same numbers in wrapper and header.

/// What stands between `before` and `after` on the first line that has both.
fn between(text: &str, before: &str, after: &str) -> String {
    let found = text
        .lines()
        .find_map(|line| line.strip_prefix(before)?.split_once(after));
    found
        .unwrap_or_else(|| panic!("no line {before}..{after}"))
        .0
        .to_string()
}

#[test]
fn wrapper_header_and_changelog_agree() {
    let header = between(
        include_str!("../../include/takwishan.h"),
        "#define TAKWISHAN_VERSION \"",
        "\"",
    );
    let newest = between(include_str!("../../CHANGELOG.md"), "## ", ":");
    assert_eq!(header, takwishan::VERSION);
    assert_eq!(newest, takwishan::VERSION);
}

#[test]
fn wrapper_and_header_have_the_same_lost_tags() {
    let header = include_str!("../../include/takwishan.h");
    let first = between(header, "    TAKWISHAN_FIRST_LOST_TAG = ", ",");
    let last = header
        .lines()
        .find_map(|line| line.strip_prefix("    TAKWISHAN_LAST_LOST_TAG = "));
    let tags = takwishan::limits::LOST_TAGS;
    assert_eq!(first, tags.start().to_string());
    assert_eq!(last, Some(tags.end().to_string().as_str()));
}

#[test]
fn wrapper_and_header_have_the_same_first_helper() {
    let header = include_str!("../../include/takwishan.h");
    let line = format!("    TAKWISHAN_FIRST_HELPER = {}", takwishan::limits::FIRST_HELPER);
    assert!(header.lines().any(|other| other == line), "the header lacks {line}");
}

#[test]
fn wrapper_and_header_have_the_same_mark_of_no_target() {
    let header = include_str!("../../include/takwishan.h");
    let line = format!("    TAKWISHAN_NO_TARGET = {}", takwishan::limits::NO_TARGET);
    assert!(header.lines().any(|other| other == line), "the header lacks {line}");
}

#[test]
fn wrapper_and_header_have_the_same_room_for_steps() {
    use takwishan::limits::{MOST_EXPLANATION_BYTES, MOST_STEPS, STEP_BYTES};
    let header = include_str!("../../include/takwishan.h");
    let numbers = [
        ("STEP_BYTES", STEP_BYTES),
        ("MOST_STEPS", MOST_STEPS),
        ("MOST_EXPLANATION_BYTES", MOST_EXPLANATION_BYTES),
    ];
    for (name, number) in numbers {
        let line = format!("    TAKWISHAN_{name} = {number}");
        let stands = |other: &str| other.split([',', '/']).next().map(str::trim_end) == Some(&line);
        assert!(header.lines().any(stands), "the header lacks {line}");
    }
    assert_eq!(STEP_BYTES * MOST_STEPS, MOST_EXPLANATION_BYTES);
}

/// A case's name as the header has it: `RuleSheetLength` is `RULE_SHEET_LENGTH`.
fn in_c(refusal: takwishan::Refusal) -> String {
    let mut name = String::new();
    for letter in format!("{refusal:?}").chars() {
        if letter.is_uppercase() {
            name.push('_');
        }
        name.extend(letter.to_uppercase());
    }
    name
}

#[test]
fn wrapper_and_header_have_the_same_refusals() {
    let header = include_str!("../../include/takwishan.h");
    for &refusal in takwishan::Refusal::ALL {
        let line = format!("    TAKWISHAN{} = {}", in_c(refusal), refusal.number());
        let stands = |other: &str| other.trim_end_matches(',') == line;
        assert!(header.lines().any(stands), "the header lacks {line}");
    }
}
