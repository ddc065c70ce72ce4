//! What a fuzzer's input is put through. Nothing may panic, and the two implementations may differ in nothing.

mod house;
mod text;

pub use house::house;
pub use text::text;

use std::io::Read;
use std::process::abort;

/// Puts standard input through a target. A panic or an error ends the program by a signal, which a fuzzer counts as found.
pub fn main(target: fn(&[u8]) -> Result<(), String>) {
    std::panic::set_hook(Box::new(|panic| {
        eprintln!("{panic}");
        abort();
    }));
    let mut input = Vec::new();
    if let Err(error) = std::io::stdin().read_to_end(&mut input) {
        eprintln!("standard input: {error}");
        return;
    }
    if let Err(error) = target(&input) {
        eprintln!("{error}");
        abort();
    }
}
