//! What an operator does to the daemon: the rows of `tests/operate`, without a guest. `rust/test
//! operate` tries them on virtiofsd too.
use std::process::Command;

#[test]
fn the_daemon_is_operated() {
    let rows = concat!(env!("CARGO_MANIFEST_DIR"), "/tests/operate");
    let daemon = env!("CARGO_BIN_EXE_pitskhomu-virtiofsd");
    let status = Command::new("python3").arg(rows).arg(daemon).status().expect("python3");
    assert!(status.success(), "a row failed");
}
