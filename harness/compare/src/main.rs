//! Same inputs to the library and to the customer's Rust, every result compared.
//!
//! `compare [model] [FACTOR]`: FACTOR times as many inputs; `model` compares the plain model instead of the library.
mod catalogue;
mod cost;
mod examples;
mod findings;
mod plans;
mod rows;
mod tables;
mod tally;

use checks::{Calls, Library, Model};
use std::{process::exit, time::Instant};
use tally::Tally;

fn main() {
    let arguments: Vec<String> = std::env::args().skip(1).collect();
    let calls: &dyn Calls = if arguments.iter().any(|a| a == "model") { &Model } else { &Library };
    let factor: u64 = arguments.iter().find_map(|a| a.parse().ok()).unwrap_or(1);
    let mut tally = Tally::default();
    let start = Instant::now();
    let examples = examples::run();
    findings::run(calls, &mut tally);
    plans::run(calls, &mut tally, factor);
    let plans = start.elapsed();
    rows::run(calls, &mut tally, factor);
    let rows = start.elapsed() - plans;
    let mut positions = Tally::default();
    catalogue::run(calls, &mut positions, factor);
    let catalogue = start.elapsed() - plans - rows;
    let mut costs = Tally::default();
    cost::run(calls, &mut costs);
    let cost = start.elapsed() - plans - rows - catalogue;
    let mut of_tables = Tally::default();
    tables::run(calls, &mut of_tables, factor);
    let tables = start.elapsed() - plans - rows - catalogue - cost;
    let good = [tally.report(), positions.report_catalogue(), costs.report_cost(), of_tables.report_tables()] == [true; 4];
    let [plans, rows, catalogue, cost, tables] = [plans, rows, catalogue, cost, tables].map(|t| t.as_secs_f64());
    println!(
        "{plans:.1} s for plans, {rows:.1} s for rows, {catalogue:.1} s for catalogue positions, \
         {cost:.1} s for plans that cost most or least, {tables:.1} s for tables of rolls"
    );
    if !good || examples > 0 {
        exit(1);
    }
}
