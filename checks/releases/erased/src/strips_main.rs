//! Prints what came of each strip of the corpus, a line each.
//!
//!     strips

mod strips;

fn main() {
    for sum in (0..).map_while(strips::sum_of) {
        println!("{sum:016x}");
    }
}
