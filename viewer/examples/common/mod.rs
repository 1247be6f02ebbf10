//! What the examples share.
use std::error::Error;
use std::process::ExitCode;

/// Prints what there is to say, or what went wrong.
pub fn say(said: Result<String, Box<dyn Error>>) -> ExitCode {
    match said {
        Ok(text) => {
            println!("{text}");
            ExitCode::SUCCESS
        }
        Err(error) => {
            eprintln!("{error}");
            ExitCode::FAILURE
        }
    }
}
