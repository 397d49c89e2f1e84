//! Times the proved calls against their twins, on the same tables in one run, and prints ratios.

#![forbid(unsafe_code)]

mod calls;
mod surveys;
mod tables;
mod timing;
mod twin;

use timing::Row;

fn main() {
    println!(
        "{:<34}{:>14}{:>14}{:>8}",
        "call", "proved ns", "twin ns", "ratio"
    );
    for row in calls::rows().into_iter().chain(surveys::rows()) {
        print_row(&row);
    }
}

fn print_row(row: &Row) {
    println!(
        "{:<34}{:>14.1}{:>14.1}{:>8.2}",
        row.call,
        row.proved,
        row.twin,
        row.proved / row.twin
    );
}
