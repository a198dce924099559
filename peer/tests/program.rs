//! The driver of `marklist`, tried on shell scripts in its place.

use peer::cases::program::{source, Compared};
use peer::compare::Comparison;
use peer::driver::Program;
use peer::model::Model;
use std::fs;
use std::os::unix::fs::PermissionsExt;
use std::path::Path;
use std::time::Duration;

const PRINT: &str = "printf 'nodes 7 states 29 hits 3\\n2 4 3\\n3 3 1\\n4 5 2\\n'";

/// How many differences the source's example has, which is three runs: its input closed, left open, and followed by more.
fn differences(script: &str, patience: Duration) -> u64 {
    let path = Path::new(env!("CARGO_TARGET_TMPDIR")).join("marklist");
    fs::write(&path, format!("#!/bin/sh\n{script}\n")).expect("a file");
    fs::set_permissions(&path, fs::Permissions::from_mode(0o755)).expect("a program");
    let path = path.to_str().expect("a path");
    let mut comparison = Comparison::quietly_with(Box::new(Model));
    source(&mut comparison, &mut Compared::new(Program { path, patience }));
    comparison.differences()
}

// One test, since a script that another thread is writing cannot be started.
#[test]
fn a_program_that_ends_badly_is_not_found() {
    let long = Duration::from_secs(20);
    assert_eq!(differences(PRINT, long), 0);
    assert_eq!(differences("echo nodes", long), 3);
    assert_eq!(differences(&format!("{PRINT}; exit 1"), long), 3);
    assert_eq!(differences(&format!("{PRINT}; kill -KILL $$"), long), 3);
    // Nothing is started behind the first run that does not end.
    let short = Duration::from_millis(300);
    assert_eq!(differences(&format!("cat > /dev/null; {PRINT}"), short), 1);
    assert_eq!(differences(&format!("{PRINT}; exec > /dev/null; cat"), short), 1);
}
