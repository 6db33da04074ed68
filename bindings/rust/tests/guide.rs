//! The example of the guide runs, and the guide has its text.
#[path = "../examples/async_signer.rs"]
mod async_signer;

#[test]
fn the_example_of_the_guide_signs() {
    async_signer::main().unwrap();
}

#[test]
fn the_guide_has_the_lines_of_the_example() {
    let example = include_str!("../examples/async_signer.rs");
    let (_, from) = example.split_once("// In the guide from here on.\n").unwrap();
    let (shown, _) = from.split_once("// In the guide up to here.\n").unwrap();
    let guide = concat!(env!("CARGO_MANIFEST_DIR"), "/../../docs/GUIDE.md");
    let guide = std::fs::read_to_string(guide).unwrap();
    assert!(guide.contains(shown), "docs/GUIDE.md has another text");
}
