//! Runs all checks of this program upon itself and says what was tried.

use std::process::ExitCode;

fn main() -> ExitCode {
    match reference::checks::all(&mut |line| println!("{line}")) {
        Ok(tally) => {
            println!(
                "most new pairs of one change {}, most falls {}; new pairs by level {:?}",
                tally.most_new_pairs,
                tally.most_falls,
                [0, 1, 2, 3].map(|level| tally.standing_at(level))
            );
            println!(
                "new pairs at {} levels of all settings, {} or more at each",
                tally.standing.len(),
                tally.standing.values().min().unwrap_or(&0)
            );
            println!(
                "{} changes passed words over, at most {} of one change",
                tally.passing, tally.most_passed
            );
            println!(
                "{} changes ran out of words, {} of walks after a draw; {} of walks were made with fewer than n div 2",
                tally.numbers[12], tally.ran_out_later, tally.made_with_few
            );
            println!(
                "{} changes of walks come out otherwise with the lowest number first",
                tally.decided
            );
            println!(
                "reference: {} changes tried, all checks hold",
                tally.changes
            );
            ExitCode::SUCCESS
        }
        Err(why) => {
            println!("reference: a check fails: {why}");
            ExitCode::FAILURE
        }
    }
}
