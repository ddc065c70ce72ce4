//! Each row of 'Marked for proof'; the seven lines are in `worked_example.rs`.

mod common;
use common::{field, file, table, Bench};

fn packed() -> Bench {
    let table = table(&[file(1, 2), field(b"PA", 3, b'P', b' ')]);
    Bench::new(&table, 4)
}

/// X'00500C' stored X'00500F'.
#[test]
fn positive_is_stored_with_f() {
    packed().run(
        "N1 format=PA. record=00500C -> 0 1 0 0
         L1 isn=1 format=PA. length=3 -> 0 1 3 0 00500F
         A1 isn=1 format=PA. record=00501C -> 0 1 0 0
         L1 isn=1 format=PA. length=3 -> 0 1 3 0 00501F",
    );
}

/// X'00000D' stored X'00000F'.
#[test]
fn zero_is_stored_with_f() {
    packed().run(
        "N1 format=PA. record=00000D -> 0 1 0 0
         L1 isn=1 format=PA. length=3 -> 0 1 3 0 00000F
         A1 isn=1 format=PA. record=00001D -> 0 1 0 0
         L1 isn=1 format=PA. length=3 -> 0 1 3 0 00001D
         A1 isn=1 format=PA. record=10000D -> 0 1 0 0
         L1 isn=1 format=PA. length=3 -> 0 1 3 0 10000D",
    );
}

/// Time 900 after the start not overdue, 901 overdue.
#[test]
fn overdue_after_900() {
    packed().run(
        "N1 format=PA. record=00500C clock=100 -> 0 1 0 0
         L1 isn=1 format=PA. length=3 clock=1000 -> 0 1 3 0 00500F
         L1 user=2 isn=1 format=PA. length=3 clock=1001 -> 113 0 0 0
         L1 user=1 isn=1 format=PA. length=3 -> 9 0 0 0
         L1 isn=1 format=PA. length=3 -> 113 0 0 0",
    );
    packed().run(
        "HI isn=1 -> 0 1 0 0
         HI isn=2 clock=900 -> 0 2 0 0
         ET clock=901 -> 9 0 0 0
         ET -> 0 0 0 1",
    );
}

/// N1 with highest ISN 1 held by HI, 75.
#[test]
fn n1_finds_none_where_the_only_isn_is_held() {
    let table = table(&[file(1, 1), field(b"AA", 1, b'A', b' ')]);
    Bench::new(&table, 4).run(
        "HI isn=1 -> 0 1 0 0
         N1 format=AA. record=31 -> 75 0 0 0
         N1 user=2 format=AA. record=31 -> 75 0 0 0
         RI user=1 isn=1 -> 0 1 1 0
         N1 user=2 format=AA. record=31 -> 0 1 0 0",
    );
}
