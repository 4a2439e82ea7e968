//! The planner's call and its program against a second implementation, from document 01's text, byte for byte, over whole
//! families of sheets. The first argument is the program's path, a second one the seed of the sheets that are drawn.

mod corners;
mod damage;
mod examples;
mod families;
mod judge;
mod orders;
mod outcome;
mod program;
mod session;
mod tally;
mod tiny;

use drawn::Chance;
use families::FAMILIES;
use program::Program;
use session::Session;
use std::process::ExitCode;

const SEED: u64 = 2008;

fn main() -> ExitCode {
    match arguments() {
        Ok((program, seed)) => run(program, seed),
        Err(message) => {
            eprintln!("every_sheet: {message}");
            ExitCode::from(2)
        }
    }
}

fn arguments() -> Result<(Program, u64), String> {
    let mut arguments = std::env::args().skip(1);
    let path = arguments.next().ok_or("the program's path is missing")?;
    let missing = format!("there is no program {path}");
    let program = Program::at(path.into()).ok_or(missing)?;
    let seed = match arguments.next().map(|seed| seed.parse()) {
        None => SEED,
        Some(Ok(seed)) => seed,
        Some(Err(_)) => return Err("the seed is a decimal number of 64 bits".to_string()),
    };
    Ok((program, seed))
}

fn run(program: Program, seed: u64) -> ExitCode {
    println!("seed {seed}");
    let mut session = Session::new(program);
    for ((name, compare), number) in FAMILIES.into_iter().zip(1..) {
        session.begin(name);
        compare(&mut session, &mut Chance::new(seed ^ (number << 56)));
    }
    session.print();
    let wrong = session.wrong();
    for what in &wrong {
        println!("{what}");
    }
    if wrong.is_empty() {
        ExitCode::SUCCESS
    } else {
        ExitCode::FAILURE
    }
}
