//! The reference's program alone: document 01's example, and inputs that are malformed for one reason each.

use reference::program::{output, MOST_INPUT};

const KEY: &str = "505152535455565758595a5b5c5d5e5f0a1a2a3a4a5a6a7a8a9aaabacadaeafa";
const IV: &str = "0123456789abcdeffedcba9876543210";
const TEXT: &str = "30313233343536373839";

fn of_lines(lines: &[&str]) -> String {
    let input: String = lines.iter().map(|line| format!("{line}\n")).collect();
    output(input.as_bytes())
}

#[test]
fn example() {
    let expected = "cipher=dd7e01b2b424a2ef8250\nauth=ddfe4e31e7bfe6902331ec5ce319d90d\n";
    assert_eq!(of_lines(&[KEY, IV, "", TEXT]), expected);
}

#[test]
fn refused_by_seal() {
    assert_eq!(of_lines(&["", "", "", ""]), "refused 1\n");
    assert_eq!(of_lines(&[&KEY[2..], &IV[2..], "", TEXT]), "refused 1\n");
    assert_eq!(of_lines(&[KEY, &IV[2..], "", TEXT]), "refused 2\n");
}

#[test]
fn malformed() {
    let good = format!("{KEY}\n{IV}\n\n{TEXT}\n");
    for end in 0..good.len() {
        assert_eq!(output(&good.as_bytes()[..end]), "refused 11\n");
    }
    for after in ["\n", "0", "00", "00\n", "\r\n", "\0"] {
        assert_eq!(output((good.clone() + after).as_bytes()), "refused 11\n");
    }
    assert_eq!(output(good.replace('\n', "\r\n").as_bytes()), "refused 11\n");
    assert_eq!(output(good.to_uppercase().as_bytes()), "refused 11\n");
    assert_eq!(of_lines(&[KEY, IV, "", &TEXT[1..]]), "refused 11\n");
    // 11 is tested first.
    assert_eq!(of_lines(&["", IV, "", "g0"]), "refused 11\n");
}

#[test]
fn longest() {
    let (most, over) = ("5a".repeat(4_096), "5a".repeat(4_097));
    assert!(of_lines(&[KEY, IV, &most, &most]).starts_with("cipher="));
    assert_eq!(of_lines(&[KEY, IV, &over, &most]), "refused 11\n");
    assert_eq!(of_lines(&[KEY, IV, &most, &over]), "refused 11\n");
    assert_eq!(of_lines(&[&most, &most, &most, &most]), "refused 1\n");
    assert_eq!(4 * (most.len() + 1), MOST_INPUT);
}
