//! The program `saturday` prints what the reference prints.

use std::path::Path;

#[test]
fn saturday() {
    let path = Path::new(env!("CARGO_MANIFEST_DIR")).join("../../crates/saturday/stdout");
    let printed = std::fs::read_to_string(&path).unwrap_or_else(|error| panic!("{}: {error}", path.display()));
    for (i, (found, expected)) in printed.lines().zip(reference::saturday::output().lines()).enumerate() {
        assert_eq!(found, expected, "line {}", i + 1);
    }
    assert_eq!(printed, reference::saturday::output());
}
