//! raised BUDGET WEIGHT < TRACE: the report of a trace with the runs that the kernel would make with this budget and weight.
use fintaqush::{raise_runs, replay, Settings};
use std::error::Error;
use std::io::{self, Read, Write};

fn number(at: usize, name: &str) -> Result<u32, Box<dyn Error>> {
    let word = std::env::args()
        .nth(at)
        .ok_or_else(|| format!("{name} is missing"))?;
    Ok(word.parse()?)
}

fn main() -> Result<(), Box<dyn Error>> {
    let settings = Settings {
        budget: number(1, "BUDGET")?,
        weight: number(2, "WEIGHT")?,
        ..Settings::default()
    };
    let mut trace = Vec::new();
    io::stdin().read_to_end(&mut trace)?;
    let raised = raise_runs(&trace, &settings, None)?;
    io::stdout().write_all(&replay(&raised, &settings)?)?;
    Ok(())
}
