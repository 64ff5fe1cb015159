//! Descriptions a second, beside a JSON tree of the same toolchain, in one run.
use std::time::Instant;

unsafe extern "C" {
    fn encode_rounds(rounds: u64) -> u64;
    fn decode_rounds(rounds: u64) -> u64;
    fn hash_rounds(rounds: u64) -> u64;
    fn verdict_rounds(rounds: u64) -> u64;
    fn tree_read_rounds(rounds: u64) -> u64;
    fn tree_write_rounds(rounds: u64) -> u64;
}

#[path = "../host.rs"]
mod host;

/// One measured call: its name, its loop, how many rounds, and the best nanoseconds a round so far.
struct Row {
    name: &'static str,
    run: unsafe extern "C" fn(u64) -> u64,
    rounds: u64,
    best: f64,
    sum: u64,
}

fn row(name: &'static str, run: unsafe extern "C" fn(u64) -> u64, rounds: u64) -> Row {
    Row { name, run, rounds, best: f64::MAX, sum: 0 }
}

fn main() {
    let mut rows = [
        row("encode", encode_rounds, 20_000),
        row("write a JSON tree", tree_write_rounds, 20_000),
        row("decode", decode_rounds, 10_000),
        row("read a JSON tree", tree_read_rounds, 10_000),
        row("service_hash", hash_rounds, 50_000),
        row("verdict", verdict_rounds, 200_000),
    ];
    let counted = rows.iter().map(|it| (it.name, it.run));
    if host::is_counted(counted.map(|(name, run)| host::row(name.to_string(), move |n| unsafe { run(n) }))) {
        return;
    }
    for _ in 0..31 {
        for row in &mut rows {
            let begin = Instant::now();
            let sum = unsafe { (row.run)(row.rounds) };
            let each = begin.elapsed().as_nanos() as f64 / row.rounds as f64;
            row.best = row.best.min(each);
            row.sum = sum;
        }
    }
    for row in &rows {
        println!("{:18} {:9.1} ns, {:6.2} million a second (sum {})", row.name, row.best, 1000.0 / row.best, row.sum);
    }
    println!("encode over writing a tree: {:.2}", rows[0].best / rows[1].best);
    println!("decode over reading a tree: {:.2}", rows[2].best / rows[3].best);
}
