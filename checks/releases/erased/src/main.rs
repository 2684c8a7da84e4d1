//! One number over the answers of a package to many random and damaged cases: the same for every package and every target.
//!
//!     cases SEED COUNT

mod cases;

fn main() {
    let words: Vec<u64> = std::env::args()
        .skip(1)
        .map(|word| word.parse().unwrap())
        .collect();
    println!("{:016x}", cases::sum_of(words[0], words[1]));
}
