//! The trials' programs in a pipe whose reader goes away.
use std::process::{Command, Stdio};

#[test]
fn a_reader_may_go_away() {
    let mut child = Command::new(env!("CARGO_BIN_EXE_compare"))
        .arg("100")
        .stdout(Stdio::piped())
        .stderr(Stdio::piped())
        .spawn()
        .unwrap();
    drop(child.stdout.take());
    let ended = child.wait_with_output().unwrap();
    assert_eq!(ended.status.code(), Some(2));
    assert!(ended.stderr.is_empty(), "{:?}", ended.stderr);
}
