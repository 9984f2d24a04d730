//! The given Rust beside the archive.
mod calls;
mod cases;
mod compare;
mod differences;
mod matrices;
mod ours;
mod random;
mod rust;
mod sample;
mod speed;
mod states;
mod timing;

fn main() {
    let words: Vec<String> = std::env::args().skip(1).collect();
    match words.first().map(String::as_str) {
        Some("speed") => speed::run(&words[1..]),
        Some("compare") => {
            if !compare::run(words[1].parse().unwrap()) {
                std::process::exit(1);
            }
        }
        Some("sample") => sample::run(words[1].parse().unwrap(), &words[2]),
        Some("differences") => differences::run(),
        Some("difference") => differences::run_theirs(words[1].parse().unwrap()),
        _ => {
            eprintln!("usage: judge speed");
            std::process::exit(2);
        }
    }
}
