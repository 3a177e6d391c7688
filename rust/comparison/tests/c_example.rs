//! The header and the C example, compiled and run by `examples/test.sh`.

use std::process::Command;

#[test]
fn c_example() {
    let script = concat!(env!("CARGO_MANIFEST_DIR"), "/../../examples/test.sh");
    let output = Command::new("sh").arg(script).output().unwrap();
    let printed = [output.stdout, output.stderr].concat();
    let printed = String::from_utf8_lossy(&printed);
    assert!(output.status.success(), "{printed}");
}
