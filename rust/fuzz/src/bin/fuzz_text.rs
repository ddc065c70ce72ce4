//! Call lists as text on standard input.

fn main() {
    fuzz::main(fuzz::text);
}
