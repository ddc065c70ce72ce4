//! Compiles the C driver and links it with SQLite, or says what is missing.

use std::path::PathBuf;
use std::process::{exit, Command};

const DRIVER: &str = "src/driver.c";

fn main() {
    println!("cargo::rerun-if-changed={DRIVER}");
    println!("cargo::rerun-if-changed=../include/towungbe.h");
    println!("cargo::rerun-if-env-changed=CC");
    let object = PathBuf::from(std::env::var_os("OUT_DIR").unwrap_or_default()).join("driver.o");
    let compiler = std::env::var("CC").unwrap_or_else(|_| "cc".to_string());
    let compiled = Command::new(&compiler)
        .args(["-std=c11", "-Wall", "-Wextra", "-Werror", "-O2"])
        .args(["-I../include", "-c", DRIVER, "-o"])
        .arg(&object)
        .status();
    match compiled {
        Ok(status) if status.success() => {}
        Ok(_) => fail("bench/src/driver.c does not compile; for sqlite3.h run `apt-get install libsqlite3-dev`"),
        Err(error) => fail(&format!("the C compiler `{compiler}` does not start ({error}): run `apt-get install gcc`, or set CC")),
    }
    println!("cargo::rustc-link-arg={}", object.display());
    println!("cargo::rustc-link-lib=sqlite3");
}

fn fail(message: &str) -> ! {
    println!("cargo::error={message}");
    exit(1);
}
