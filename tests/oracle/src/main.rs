//! The program `oracle`: makes network files and answers questions about them.

use std::io::Write;
use std::process::ExitCode;

fn main() -> ExitCode {
    let arguments: Vec<String> = std::env::args().skip(1).collect();
    let printed = oracle::command::run(&arguments, &mut std::io::stdin());
    let written = printed.and_then(|output| {
        let mut out = std::io::stdout();
        let result = out.write_all(&output).and_then(|()| out.flush());
        result.map_err(|error| format!("the output cannot be written: {error}"))
    });
    match written {
        Ok(()) => ExitCode::SUCCESS,
        Err(wrong) => {
            eprintln!("oracle: {wrong}");
            ExitCode::from(2)
        }
    }
}
