//! The running of trace texts.

use crate::both::same;
use crate::run_tally::Tally;
use crate::runs::Stage;
use crate::texts::{families, stated, Family};
use crate::Verdict;
use std::io::Write;
use std::str::from_utf8;

/// The most bytes of a record space that is lent.
const MOST_SPACE: usize = 131_072;

pub fn all() -> Verdict {
    let stage = Stage::new(MOST_SPACE);
    as_stated(&stage)?;
    println!("the worked example, P12, a line feed alone and P13: equal, and as stated");
    let mut tally = Tally::default();
    for family in families() {
        of_family(&stage, &family, &mut tally).map_err(|why| format!("{}: {why}", family.name))?;
    }
    tally.print();
    tally.all_came()
}

fn as_stated(stage: &Stage) -> Verdict {
    for run in stated() {
        let name = run.name;
        let ran = stage
            .run(&run.case)
            .map_err(|why| format!("{name}: {why}"))?;
        let told = (ran.outcome.number, ran.outcome.line);
        same(name, told, (run.number, run.line))?;
        if let Some(record) = run.record {
            same(name, from_utf8(&ran.record), Ok(record))?;
        }
    }
    Ok(())
}

/// All cases of a family, among which every number that it is for must come.
fn of_family(stage: &Stage, family: &Family, tally: &mut Tally) -> Verdict {
    let mut numbers = [0; 14];
    for place in 0..family.cases {
        let case = (family.make)(place);
        let ran = stage
            .run(&case)
            .map_err(|why| format!("case {place}: {why}"))?;
        numbers[ran.outcome.number as usize] += 1;
        tally
            .note(&case, &ran)
            .map_err(|why| format!("case {place}: {why}"))?;
    }
    let told: Vec<String> = (0..numbers.len())
        .filter(|&number| numbers[number] > 0)
        .map(|number| format!("{} with {number}", numbers[number]))
        .collect();
    println!(
        "{} runs, {}: {}: equal",
        family.cases,
        family.name,
        told.join(", ")
    );
    match family.missed(&numbers) {
        Some(number) => Err(format!("number {number} never came")),
        None => Ok(()),
    }
}

/// Prints the text of one case, so that it can be looked at alone.
pub fn print_text(family: &str, place: &str) -> Verdict {
    let all = families();
    let found = all.iter().find(|other| other.name == family);
    let found = found.ok_or(format!("no such family: {family}"))?;
    let place: u64 = place
        .parse()
        .map_err(|why| format!("{place} is no place: {why}"))?;
    let text = (found.make)(place).text;
    std::io::stdout()
        .write_all(&text)
        .map_err(|why| why.to_string())
}
