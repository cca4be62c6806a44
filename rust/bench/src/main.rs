//! Times of the archive's calls beside the reference's, measured turn about.
//!
//! `bench` prints two tables; the second has loads by lines beside loads of
//! the whole text. `bench once CALL WHO N` makes one call N times and
//! prints nothing but its answers' sum: count the instructions of N + 1 and of
//! N calls, and the difference is one call's. WHO is `ours` or `reference`.

mod calls;
mod inputs;
mod measure;
mod opaque;
mod ours;
mod theirs;

use calls::{Call, CALLS, IMAGE, LOADS};
use inputs::Inputs;
use std::env;
use std::process::exit;

fn main() {
    let arguments: Vec<String> = env::args().skip(1).collect();
    let words: Vec<&str> = arguments.iter().map(String::as_str).collect();
    let inputs = Inputs::new();
    match words[..] {
        [] => tables(&inputs),
        ["once", call, who, times] => once(&inputs, call, who, times),
        _ => usage(),
    }
}

fn tables(inputs: &Inputs) {
    println!("Nanoseconds a call: the median of blocks that alternate between the two.");
    println!("Lent buffers are made dirty before each block, outside the timed part.");
    println!();
    heading("call", "ours", "reference");
    for call in &CALLS {
        let times = measure::turn_about(call.ours, call.reference, call.output, inputs);
        row(call.title, times);
    }
    println!();
    println!(
        "Ours alone: begin, a call for each line, and end, beside the load of the whole text."
    );
    println!();
    heading("text", "by lines", "whole");
    for loads in &LOADS {
        let times = measure::turn_about(loads.by_lines, loads.whole, IMAGE, inputs);
        row(loads.title, times);
    }
}

fn heading(what: &str, one: &str, other: &str) {
    println!("{:<44} {:>10} {:>10} {:>6}", what, one, other, "ratio");
}

fn row(title: &str, (one, other): (f64, f64)) {
    println!(
        "{:<44} {:>10.1} {:>10.1} {:>6.2}",
        title,
        one,
        other,
        one / other
    );
}

fn once(inputs: &Inputs, name: &str, who: &str, times: &str) {
    let call = match CALLS.iter().find(|call| call.name == name) {
        Some(call) => call,
        None => usage(),
    };
    let side = match who {
        "ours" => call.ours,
        "reference" => call.reference,
        _ => usage(),
    };
    let times: u64 = match times.parse() {
        Ok(times) => times,
        Err(_) => usage(),
    };
    // What is in the buffer changes no instruction, so it is made dirty once.
    let mut output = vec![0xA5; call.output];
    let mut sum = 0_u64;
    for _ in 0..times {
        sum = sum.wrapping_add(side(inputs, &mut output));
    }
    println!("{}", sum);
}

fn usage() -> ! {
    let names: Vec<&str> = CALLS.iter().map(|call: &Call| call.name).collect();
    eprintln!("bench, or bench once CALL WHO N");
    eprintln!("CALL: {}", names.join(", "));
    eprintln!("WHO: ours, reference");
    exit(2)
}
