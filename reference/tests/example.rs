//! The example that stands beside the programs is what this program answers.

use reference::rehearsal::play;

#[test]
fn four_plants() {
    let script = include_bytes!("../../examples/four_plants.script");
    let expected: Vec<&str> = include_str!("../../examples/four_plants.out")
        .lines()
        .collect();
    assert_eq!(play(script), expected);
}
