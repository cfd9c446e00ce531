//! The replay of whole recordings: ordinary Rust, the proved library, and Rust as fast as it gets.
//!
//! First all three must give the same answer, to every timed recording and to many random and damaged ones. Then they are timed in
//! turn. Nothing is claimed of the time. Words: how many repeats (201), and what the names of the timed rows contain (anything); or
//! --compare alone, for the answers without the times.
mod agree;
mod answer;
mod expert;
mod kind;
mod make;
mod ordinary;
mod policy;
mod proved;
mod random;
mod rows;
mod table;

use answer::Replay;
use parnusild::EVENTS;
use rows::Row;
use std::time::Instant;

const NAMES: [&str; 3] = ["ordinary", "proved", "expert"];
const REPLAYS: [Replay; 3] = [ordinary::replay, proved::replay, expert::replay];
/// So many first repeats only warm up.
const WARM_UP: usize = 3;

fn fail(why: String) -> ! {
    eprintln!("bench: {}", why);
    std::process::exit(1);
}

fn median(mut times: Vec<f64>) -> f64 {
    times.sort_by(f64::total_cmp);
    times[times.len() / 2]
}

/// One repeat: nanoseconds an event. A short recording is replayed many times over in it.
fn once(replay: Replay, row: &Row, numbers: &mut [u32]) -> f64 {
    let times = EVENTS / row.events;
    let begin = Instant::now();
    for _ in 0..times {
        let answer = replay(&row.bytes, numbers);
        assert_eq!(answer.place, row.bytes.len());
    }
    begin.elapsed().as_nanos() as f64 / (times * row.events) as f64
}

/// Nanoseconds an event, each the median of the repeats, which take turns.
fn timed(row: &Row, repeats: usize, numbers: &mut [u32]) -> [f64; 3] {
    let mut taken = REPLAYS.map(|_| Vec::new());
    for _ in 0..WARM_UP + repeats {
        REPLAYS.iter().zip(&mut taken).for_each(|(&replay, taken)| taken.push(once(replay, row, numbers)));
    }
    taken.map(|times| median(times[WARM_UP..].to_vec()))
}

/// Times the rows and prints them as a table: the worst ratio of proved to ordinary over the rows with as many events as there may be.
fn print_times(rows: &[Row], repeats: usize) -> f64 {
    println!("| recording | events | ordinary | proved | expert | proved/ordinary | proved/expert |");
    println!("|---|---:|---:|---:|---:|---:|---:|");
    let mut numbers = vec![0; EVENTS];
    let mut worst: f64 = 0.0;
    for row in rows {
        let [ordinary, proved, expert] = timed(row, repeats, &mut numbers);
        let ratio = proved / ordinary;
        if row.full {
            worst = worst.max(ratio);
        }
        println!(
            "| {} | {} | {:.1} | {:.1} | {:.1} | {:.2} | {:.2} |",
            row.name,
            row.events,
            ordinary,
            proved,
            expert,
            ratio,
            proved / expert
        );
    }
    worst
}

/// The rows whose names contain the word. The worst ratio is of those with as many events as there may be, so there must be one.
fn chosen(mut rows: Vec<Row>, part: &str) -> Vec<Row> {
    rows.retain(|row| row.name.contains(part));
    if !rows.iter().any(|row| row.full) {
        fail(format!("no row with as many events as there may be has {:?} in its name", part));
    }
    rows
}

fn time(rows: &[Row], repeats: usize) {
    println!(
        "nanoseconds an event, medians of {} repeats in turn; one list for all, cleared by none before a replay",
        repeats
    );
    println!();
    let worst = print_times(rows, repeats);
    println!();
    println!("worst ratio {:.2}", worst);
}

fn main() {
    let words: Vec<String> = std::env::args().skip(1).collect();
    if words == ["--compare"] {
        agree::check(&rows::rows());
        return;
    }
    if words.len() > 2 {
        fail("words: --compare, or how many repeats and a part of the rows' names".to_string());
    }
    let word = words.first().map_or("201", String::as_str);
    let part = words.get(1).map_or("", String::as_str);
    let repeats: usize = word.parse().unwrap_or(0);
    if repeats == 0 {
        fail(format!("{:?} is no number of repeats", word));
    }
    let rows = rows::rows();
    let earned = agree::check(&rows);
    println!("random ones by kind and refusal, from 0 on: {:?}", earned);
    time(&chosen(rows, part), repeats);
}
