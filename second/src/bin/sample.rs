// Writes the sample book: sample book > samples/night.book; sample names > samples/night.names.

use std::io::Write;
use std::process::ExitCode;

use second::sample;

fn main() -> ExitCode {
    let arguments: Vec<String> = std::env::args().skip(1).collect();
    let bytes = match arguments.iter().map(String::as_str).collect::<Vec<_>>()[..] {
        ["book"] => sample::book(),
        ["names"] => sample::names(),
        _ => {
            eprintln!("sample book | sample names");
            return ExitCode::from(2);
        }
    };
    match std::io::stdout().write_all(&bytes) {
        Ok(()) => ExitCode::SUCCESS,
        Err(why) => {
            eprintln!("sample: {why}");
            ExitCode::FAILURE
        }
    }
}
