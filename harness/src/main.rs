//! The proved lowering beside the Rust that it was ported from. See README.md.
mod bench;
#[path = "../../../shared/oracle/src/chunk.rs"]
mod chunk;
mod chunks;
mod compare;
mod form;
mod generators;
mod ours;
mod second;

fn unhex(s: &str) -> Vec<u8> {
    let d: Vec<u8> = s.chars().filter(|c| !c.is_whitespace()).map(|c| c.to_digit(16).expect("hex") as u8).collect();
    assert!(d.len() % 2 == 0, "hex: an odd number of digits");
    d.chunks(2).map(|p| p[0] * 16 + p[1]).collect()
}

/// The chunks of a file with lines `hex CHUNK`.
fn chunks_of(file: &str) -> Vec<Vec<u8>> {
    std::fs::read_to_string(file).unwrap_or_else(|e| panic!("{file}: {e}")).lines().filter_map(|l| l.strip_prefix("hex ")).map(unhex).collect()
}

fn run() -> i32 {
    let args: Vec<String> = std::env::args().skip(1).collect();
    match args.iter().map(String::as_str).collect::<Vec<_>>()[..] {
        ["bench"] => bench::run(None),
        ["bench", only] => bench::run(Some(only)),
        ["clearing"] => { bench::clearing(); 0 }
        ["profile", who, nodes, shape, constants, times] => { bench::profile(nodes.parse().unwrap(), shape == "deep", constants.parse().unwrap(), who == "rust", times.parse().unwrap()); 0 }
        ["compare"] => compare::run(1, 0),
        ["compare", share] => compare::run(share.parse().unwrap(), 0),
        ["compare", share, round] => compare::run(share.parse().unwrap(), round.parse().unwrap()),
        ["second"] => second::generated(1, 0),
        ["second", share] => second::generated(share.parse().unwrap(), 0),
        ["second", share, round] => second::generated(share.parse().unwrap(), round.parse().unwrap()),
        ["shapes", nodes] => second::shapes(nodes.parse().unwrap()),
        ["list", file] => compare::listed(&chunks_of(file)),
        ["pools", file] => compare::pools(&chunks_of(file)),
        ["chunk", hex] => compare::listed(&[unhex(hex)]),
        _ => { eprintln!("harness bench [NODES-SHAPE-CONSTANTS] | clearing | profile ours|rust NODES SHAPE CONSTANTS TIMES | compare [SHARE [ROUND]] | second [SHARE [ROUND]] | shapes NODES | list FILE | pools FILE | chunk HEX"); 2 }
    }
}

fn main() {
    compare::quiet_in_rust();
    if std::env::args().nth(1).is_some_and(|a| a == "bench" || a == "profile") {
        // on the first thread, where allocations are the fastest
        std::process::exit(run());
    }
    let h = std::thread::Builder::new().stack_size(256 << 20).spawn(run).unwrap();
    std::process::exit(h.join().unwrap_or(101));
}
