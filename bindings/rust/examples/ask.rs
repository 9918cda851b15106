//! Prints every chain from person 0 to person 5 in at most four hops in the link file on standard input, as the program
//! `chains` does.

use std::error::Error;
use std::io::{stdin, Read};
use std::process::ExitCode;

fn ask() -> Result<(), Box<dyn Error>> {
    let mut file = Vec::new();
    stdin().read_to_end(&mut file)?;

    // Links without a day count, as they do unless it is said otherwise.
    let question = kin::Question {
        undated: true,
        ..kin::Question::between(0, 5, 4)
    };
    let mut count = 0;
    for chain in kin::chains(&file, question) {
        println!("{}", chain?);
        count += 1;
    }
    println!("end {count}");
    Ok(())
}

fn main() -> ExitCode {
    match ask() {
        Ok(()) => ExitCode::SUCCESS,
        Err(why) => {
            println!("{why}");
            ExitCode::FAILURE
        }
    }
}
