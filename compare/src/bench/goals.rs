//! The table of goals, as docs/BENCHMARKS.md has it: of each group that has a goal its ratios.

use super::rows::{Group, GROUPS};
use super::table::Row;

pub fn print(rows: &[Row]) {
    println!();
    println!("| | goal | Rust / ours | reached |");
    println!("|---|---|---|---|");
    for group in &GROUPS {
        if let Some(goal) = group.goal {
            print_group(group, goal, rows);
        }
    }
}

fn print_group(group: &Group, goal: f64, rows: &[Row]) {
    // As they are shown.
    let hundredths = |(_, row): &(_, &Row)| (row.called.ratio * 100.0).round();
    let mut ratios: Vec<f64> = group.find(rows).iter().map(hundredths).collect();
    ratios.sort_by(f64::total_cmp);
    let (Some(least), Some(most)) = (ratios.first(), ratios.last()) else {
        return;
    };
    let mut range = format!("{:.2}", least / 100.0);
    if least < most {
        range += &format!(" to {:.2}", most / 100.0);
    }
    let reached = ratios.iter().filter(|&&ratio| ratio >= goal * 100.0);
    let (head, reached, all) = (group.head, reached.count(), ratios.len());
    println!("| {head} | {goal:.1} | {range} | {reached} of {all} |");
}
