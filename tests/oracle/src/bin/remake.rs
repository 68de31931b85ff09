//! The program `remake`: writes the stored files of the repository, or
//! compares them.

use oracle::stored;
use std::io::Write;
use std::process::ExitCode;

fn main() -> ExitCode {
    let arguments: Vec<String> = std::env::args().skip(1).collect();
    let arguments: Vec<&str> = arguments.iter().map(String::as_str).collect();
    let reported = stored::run(&stored::root(), &arguments).and_then(|report| {
        let written = std::io::stdout().write_all(report.text.as_bytes());
        written.map_err(|error| format!("the output cannot be written: {error}"))?;
        Ok(report.success)
    });
    match reported {
        Ok(true) => ExitCode::SUCCESS,
        Ok(false) => ExitCode::FAILURE,
        Err(wrong) => {
            eprintln!("remake: {wrong}");
            ExitCode::from(2)
        }
    }
}
