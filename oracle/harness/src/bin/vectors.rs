//! vectors SEED FOLDER: writes a file of vectors for each function and prints the
//! number of cases.

use std::fs;
use std::path::Path;
use std::process::ExitCode;

use harness::rows::ROWS;
use harness::{arguments, vectors};

fn main() -> ExitCode {
    match run(&arguments::given()) {
        Ok(cases) => {
            println!("{cases} cases");
            ExitCode::SUCCESS
        }
        Err(line) => arguments::refused("vectors", &line),
    }
}

fn run(given: &[String]) -> Result<usize, String> {
    let [seed, folder] = given else {
        return Err("the arguments are SEED FOLDER".into());
    };
    let seed = arguments::number("SEED", seed)?;
    let mut cases = 0;
    for row in ROWS {
        let Some(lines) = row.vectors else {
            continue;
        };
        let lines = lines(seed);
        cases += lines.len();
        let file = Path::new(folder).join(row.name);
        fs::write(&file, vectors::text(seed, &lines))
            .map_err(|error| format!("{}: {error}", file.display()))?;
    }
    Ok(cases)
}
