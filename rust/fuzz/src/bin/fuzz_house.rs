//! A house call list on standard input.

fn main() {
    fuzz::main(fuzz::house);
}
