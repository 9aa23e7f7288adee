//! The mistakes that the commands tell at once, before anything is proved or built:
//! one line on standard error, and status 2.

use std::path::Path;
use std::process::Command;

use harness::rows::ROWS;

const NOWHERE: &str = "/nowhere";

/// The line that a command ends with. It finds neither the Rust nor an archive.
fn refused(command: &str, arguments: &[&str]) -> String {
    let oracle = Path::new(env!("CARGO_MANIFEST_DIR")).join("..");
    let output = Command::new(oracle.join(command))
        .args(arguments)
        .env("PHONORS_SRC", NOWHERE)
        .env("ZONE_C_ARCHIVE", NOWHERE)
        .output()
        .expect("the command runs");
    let line = String::from_utf8(output.stderr).expect("a text");
    assert_eq!(output.status.code(), Some(2), "{line}");
    assert!(
        output.stdout.is_empty() && line.lines().count() == 1,
        "{line}"
    );
    let start = format!("oracle/{command}: ");
    line.strip_prefix(&start).expect("its name").to_string()
}

/// The script knows the functions of `ROWS` and no others.
#[test]
fn names() {
    let line = refused("compare", &["nothing", "1", "1"]);
    let known: String = ROWS.iter().map(|row| format!(" {}", row.name)).collect();
    assert_eq!(
        line.trim_end(),
        format!("nothing is no function; known are all{known}")
    );
    for name in ["", ".*", "Snf3x3", "snf3x3 ", "-v"] {
        assert!(refused("compare", &[name, "1", "1"]).contains("is no function"));
    }
    for name in ROWS.iter().map(|row| row.name).chain(["all"]) {
        assert!(refused("compare", &[name, "1", "1"]).starts_with("PHONORS_SRC names no "));
    }
}

#[test]
fn numbers() {
    let cases = |cases| refused("compare", &["all", cases, "1"]);
    for text in [
        "",
        "-1",
        "+1",
        "1e6",
        "18446744073709551616",
        "100000000000000000000",
    ] {
        assert!(cases(text).starts_with("CASES is no whole number"));
        assert!(refused("compare", &["all", "1", text]).starts_with("SEED is no whole number"));
        assert!(refused("vectors", &[text]).starts_with("SEED is no whole number"));
    }
    for text in ["0", "18446744073709551615", "000000000000000000000001"] {
        assert!(cases(text).starts_with("PHONORS_SRC"));
    }
}

#[test]
fn arguments() {
    for arguments in [&[][..], &["all"], &["all", "1"], &["all", "1", "1", "1"]] {
        assert!(refused("compare", arguments).starts_with("the arguments are "));
    }
    assert!(refused("vectors", &["1", "1"]).starts_with("the only argument is "));
    for command in ["bench", "growth"] {
        assert!(refused(command, &["snf3x3"]).starts_with("there are no arguments"));
    }
}

#[test]
fn sources() {
    for command in ["vectors", "bench", "growth", "test"] {
        assert!(
            refused(command, &[]).starts_with("PHONORS_SRC names no folder of phonors: /nowhere")
        );
    }
}
