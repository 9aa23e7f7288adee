//! The arguments of the commands. What is wrong with them is one line on
//! standard error, and status 2.

use std::env;
use std::process::ExitCode;

use crate::rows::{Row, ROWS};

/// The arguments; one that is no text is refused by what reads it.
pub fn given() -> Vec<String> {
    let arguments = env::args_os().skip(1);
    arguments
        .map(|argument| argument.to_string_lossy().into_owned())
        .collect()
}

pub fn refused(command: &str, line: &str) -> ExitCode {
    eprintln!("oracle/{command}: {line}");
    ExitCode::from(2)
}

/// A case count or a seed.
pub fn number(name: &str, text: &str) -> Result<u64, String> {
    let number = text.parse().ok().filter(|_| !text.starts_with('+'));
    number.ok_or(format!("{name} is no whole number of 64 bits: {text}"))
}

/// The function of a name, or every one for `all`.
pub fn functions(name: &str) -> Result<Vec<&'static Row>, String> {
    let rows: Vec<&Row> = ROWS
        .iter()
        .filter(|row| name == "all" || name == row.name)
        .collect();
    if rows.is_empty() {
        let known: String = ROWS.iter().map(|row| format!(" {}", row.name)).collect();
        return Err(format!("{name} is no function; known are all{known}"));
    }
    Ok(rows)
}

#[cfg(test)]
mod tests {
    use super::*;

    #[test]
    fn numbers() {
        assert_eq!(number("SEED", "18446744073709551615"), Ok(u64::MAX));
        for text in ["", "-1", "+1", "1e6", "18446744073709551616"] {
            assert!(number("SEED", text).is_err());
        }
    }

    #[test]
    fn names() {
        let names = |name| functions(name).map(|rows| rows.iter().map(|row| row.name).collect());
        assert_eq!(names("checked_mul"), Ok(vec!["checked_mul"]));
        assert_eq!(names("all").map(|all| all.len()), Ok(ROWS.len()));
        assert!(names("zone_checked_mul")
            .unwrap_err()
            .contains("checked_mul"));
    }
}
