//! Calls a second from Rust, as calls.c makes them from C.
use std::hint::black_box;
use std::time::{Duration, Instant};

use vinjakwe::{check, check_version, Bank, Command, Expected, Nonce, Required, Verdict};

const ROUNDS: usize = 5;
const ROUND: Duration = Duration::from_millis(200);

fn bytes_of(text: &str) -> Vec<u8> {
    (0..text.len() / 2).map(|i| u8::from_str_radix(&text[2 * i..2 * i + 2], 16).expect("hexadecimal")).collect()
}

fn rate(call: &dyn Fn()) -> f64 {
    let start = Instant::now();
    let mut count = 0;
    while start.elapsed() < ROUND {
        for _ in 0..100 {
            call();
        }
        count += 100;
    }
    f64::from(count) / start.elapsed().as_secs_f64()
}

fn print_rate(name: &str, call: &dyn Fn()) {
    let most = (0..ROUNDS).map(|_| rate(call)).fold(0.0, f64::max);
    println!("{name} {most:.0}");
}

fn main() {
    check_version().expect("the library has another version than the crate");
    let words: Vec<String> = std::env::args().collect();
    let log = std::fs::read(&words[1]).expect("a log");
    let quote = std::fs::read(&words[2]).expect("a quote");
    let nonce = bytes_of(&words[3]);
    let zeros = "00".repeat(32);
    let short = "00".repeat(20);
    let command = bytes_of(&format!(
        "80020000009700000182000000100000004902000000{0:}{zeros}010020{zeros}000000020004{short}000b{zeros}",
        "0020"
    ));
    let required = [0, 0, 0, 1, 0, 0x0b, 3, 0x81, 0, 0]; // TPML_PCR_SELECTION: sha256:0,7
    print_rate("decode", &|| {
        let command = Command::decode(black_box(&command)).expect("a command");
        assert_eq!(command.sessions.len(), 1);
    });
    print_rate("check", &|| {
        let expected = Expected::new(Nonce::Is(&nonce), Required::Registers(&required), Bank::Sha256);
        assert_eq!(check(black_box(&log), &quote, &expected), Ok(Verdict::Matches));
    });
}
