//! Reads lines of standard input as bench/library/steps.c and plans.c do, and prints how many of
//! them say what the library answers: steps of nodes, which have eight words, and numbers of plans,
//! which have six. try.py makes it the program of a copy of bindings/rust/.

use std::io::BufRead;

fn bytes(hex: &str) -> Vec<u8> {
    let hex = hex.trim_start_matches('-');
    (0..hex.len() / 2)
        .map(|i| u8::from_str_radix(&hex[2 * i..2 * i + 2], 16).expect("hex digits"))
        .collect()
}

fn step(plan: &str, id: &str, state: &str, packets: &str) -> String {
    let mut state = bytes(state);
    let answer = counterlab::step(
        &bytes(plan),
        id.parse().unwrap(),
        &mut state,
        &bytes(packets),
    );
    let numbers = match answer {
        Ok(count) => format!("0 0 {count}"),
        Err(a) => format!("{} {} {}", a.code, a.detail, a.value),
    };
    let digits: String = state.iter().map(|it| format!("{it:02x}")).collect();
    format!("{numbers} {}", if state.is_empty() { "-" } else { &digits })
}

fn numbers(plan: &str) -> String {
    let plan = bytes(plan);
    match (counterlab::plan(&plan), counterlab::state_bytes(&plan, 0)) {
        (Ok(n), Ok(bytes)) => format!("{} {} {} {} {bytes}", n.nodes, n.faults, n.modulus, n.bound),
        (numbers, bytes) => format!("{numbers:?} {bytes:?}"),
    }
}

fn is_same(line: &str) -> bool {
    let words: Vec<&str> = line.split(' ').collect();
    match words[..] {
        [plan, id, state, packets, ..] if words.len() == 8 => {
            step(plan, id, state, packets) == words[4..].join(" ")
        }
        [plan, ..] if words.len() == 6 => numbers(plan) == words[1..].join(" "),
        _ => false,
    }
}

fn main() {
    let lines = std::io::stdin().lock().lines();
    let cases: Vec<bool> = lines.map(|it| is_same(&it.unwrap())).collect();
    let same = cases.iter().filter(|it| **it).count();
    println!("{same} of {}", cases.len());
    std::process::exit((same != cases.len()) as i32);
}
