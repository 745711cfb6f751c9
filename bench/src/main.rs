//! The proved functions beside plain Rust, in one process and on the same inputs: ns and their ratio, and that the results are the same, bit for bit.

mod angles;
mod arms;
mod asked;
mod boundary;
mod calls;
mod constraints;
mod count;
mod leaves;
mod solves;
mod table;
mod text;
mod times;

fn main() {
    let words: Vec<String> = std::env::args().skip(1).collect();
    match words.split_first() {
        Some((mode, words)) if mode == "count" => count::run(words),
        Some((mode, [])) if mode == "angles" => angles::compare(),
        _ => time_all(),
    }
}

fn time_all() {
    let mut table = table::Table::new();
    leaves::time(&mut table);
    calls::time(&mut table);
    constraints::time(&mut table);
    solves::time(&mut table);
    table.sum_up();
    boundary::time();
}
