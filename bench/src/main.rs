//! Compares the proved code with the same work in plain Rust: first what both answer, then the time that both take.
//! Both write into areas that are not cleared between rounds.

mod card;
mod gadgets;
mod plain;
mod programs;
mod proved;
mod random;
mod till;
mod timing;

type Failure = Box<dyn std::error::Error>;

fn main() -> Result<(), Failure> {
    let arguments: Vec<String> = std::env::args().skip(1).collect();
    let arguments: Vec<&str> = arguments.iter().map(String::as_str).collect();
    match arguments[..] {
        // What the timing of a card starts in turn with the proved program.
        ["scenario"] => plain::scenario::run(),
        [records, program] => {
            till::compare(records)?;
            gadgets::compare();
            card::compare(program)
        }
        _ => Err("usage: bench RECORDS PROGRAM, or bench scenario".into()),
    }
}
