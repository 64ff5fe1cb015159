//! What of a program is counted: `PROGRAM count ROW ROUNDS` makes so many rounds of that row alone, and prints its name and the sum that they
//! gave; past the last row it prints nothing. Each program of peers takes this file in by `#[path]`.

/// Whether the program was called so. `run` is given a row below `rows`, and how many rounds.
pub fn row(rows: usize, run: impl Fn(usize, u64) -> (String, u64)) -> bool {
    let words: Vec<String> = std::env::args().skip(1).collect();
    let ["count", row, rounds] = words.iter().map(String::as_str).collect::<Vec<_>>()[..] else {
        return false;
    };
    let (row, rounds) = (row.parse().expect("a row"), rounds.parse().expect("how many rounds"));
    if row < rows {
        let (name, sum) = run(row, rounds);
        println!("{name} = {sum}");
    }
    true
}
