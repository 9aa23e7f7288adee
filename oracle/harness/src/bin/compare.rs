//! compare FUNCTION CASES SEED: a line for each function; status 1 if there is
//! any difference.

use std::process::ExitCode;

use harness::arguments;

fn main() -> ExitCode {
    match run(&arguments::given()) {
        Ok(0) => ExitCode::SUCCESS,
        Ok(_) => ExitCode::FAILURE,
        Err(line) => arguments::refused("compare", &line),
    }
}

/// The number of differences.
fn run(given: &[String]) -> Result<u64, String> {
    let [function, cases, seed] = given else {
        return Err("the arguments are FUNCTION CASES SEED".into());
    };
    let rows = arguments::functions(function)?;
    let cases = arguments::number("CASES", cases)?;
    let seed = arguments::number("SEED", seed)?;
    let mut total = 0;
    for row in rows {
        let differences = (row.compare)(cases, seed);
        println!("{} cases {cases} differences {differences}", row.name);
        total += differences;
    }
    Ok(total)
}
