//! Each item of 'Errors a good builder makes', and of 'Cheap programs against these rules'.

mod common;
use common::{bench, field, file, table, Bench};

/// "Freeing a given-up unique value before ET."
#[test]
fn given_up_unique_value_stays_taken_until_et() {
    let start = "N1 format=AA. record=31 -> 0 1 0 0
                 ET -> 0 0 1 1";
    for give_up in [
        "A1 isn=1 option=H format=AA. record=32 -> 0 1 0 0",
        "E1 isn=1 option=H -> 0 1 0 0",
    ] {
        bench().run(&format!(
            "{start}
             {give_up}
             N1 user=2 format=AA. record=31 -> 198 0 0 0
             BT user=1 -> 0 0 1 0
             N1 user=2 format=AA. record=31 -> 198 0 0 0
             L1 isn=1 format=AA. length=1 -> 0 1 1 0 31"
        ));
        bench().run(&format!(
            "{start}
             {give_up}
             N1 user=2 format=AA. record=31 -> 198 0 0 0
             ET user=1 -> 0 0 1 2
             N1 user=2 format=AA. record=31 -> 0 2 0 0"
        ));
    }
}

/// "Renewing an image at the second change."
#[test]
fn second_change_keeps_the_first_image() {
    for second in [
        "A1 isn=1 format=AA. record=33 -> 0 1 0 0",
        "E1 isn=1 -> 0 1 0 0",
        "E1 isn=1 -> 0 1 0 0
         N2 isn=1 format=AA. record=34 -> 0 1 0 0",
    ] {
        bench().run(&format!(
            "N1 format=AA,AB. record=314142 -> 0 1 0 0
             ET -> 0 0 1 1
             A1 isn=1 option=H format=AA. record=32 -> 0 1 0 0
             {second}
             N1 user=2 format=AA. record=31 -> 198 0 0 0
             BT user=1 -> 0 0 1 0
             L1 isn=1 format=AA,AB. length=3 -> 0 1 3 0 314142"
        ));
    }
    // What an add made is gone after BT, whatever came after the add.
    bench().run(
        "N1 format=AA. record=31 -> 0 1 0 0
         A1 isn=1 format=AA. record=32 -> 0 1 0 0
         BT -> 0 0 1 0
         L1 isn=1 format=AA. length=1 -> 113 0 0 0",
    );
}

/// "Giving N1 an ISN that its holder has just emptied."
#[test]
fn n1_skips_an_isn_that_its_holder_has_emptied() {
    let start = "N1 format=AA. record=31 -> 0 1 0 0
                 N1 format=AA. record=32 -> 0 2 0 0
                 N1 format=AA. record=33 -> 0 3 0 0
                 ET -> 0 0 3 1
                 E1 isn=2 option=H -> 0 2 0 0";
    bench().run(&format!(
        "{start}
         N1 format=AA. record=34 -> 75 0 0 0
         N1 user=2 format=AA. record=34 -> 75 0 0 0
         BT user=1 -> 0 0 1 0
         L1 isn=2 format=AA. length=1 -> 0 2 1 0 32"
    ));
    bench().run(&format!(
        "{start}
         ET -> 0 0 1 2
         N1 user=2 format=AA. record=34 -> 0 2 0 0"
    ));
}

/// "Judging uniqueness before P is put in stored form."
#[test]
fn uniqueness_is_judged_in_stored_form() {
    bench().run(
        "N1 file=2 format=PA. record=123C -> 0 1 0 0
         N1 file=2 format=PA. record=123F -> 198 0 0 0
         N1 file=2 format=PA. record=123C -> 198 0 0 0
         N1 file=2 format=PA. record=123D -> 0 2 0 0
         A1 file=2 isn=2 format=PA. record=123C -> 198 0 0 0",
    );
    bench().run(
        "N1 file=2 format=PA. record=000D -> 0 1 0 0
         N1 file=2 format=PA. record=000C -> 198 0 0 0
         N1 file=2 format=PA. record=000F -> 198 0 0 0
         N1 file=2 format=BA. record=01 -> 198 0 0 0
         A1 file=2 isn=1 format=PA. record=000C -> 0 1 0 0",
    );
}

/// A nucleus that lets changes pass with 0 and stores none.
#[test]
fn the_next_read_sees_each_change() {
    bench().run(
        "N1 format=AA,AB. record=314142 -> 0 1 0 0
         L1 isn=1 format=AA,AB. length=3 -> 0 1 3 0 314142
         A1 isn=1 format=AB. record=4344 -> 0 1 0 0
         L1 isn=1 format=AA,AB. length=3 -> 0 1 3 0 314344
         N2 isn=3 format=AB. record=4546 -> 0 3 0 0
         L1 isn=3 format=AB,AA. length=3 -> 0 3 3 0 454620
         E1 isn=1 -> 0 1 0 0
         L1 isn=1 format=AA. length=1 -> 113 0 0 0",
    );
}

/// One that is correct in a user's first transaction and idle after.
#[test]
fn the_second_transaction_is_as_the_first() {
    bench().run(
        "N1 format=AA. record=31 -> 0 1 0 0
         ET record=41 -> 0 0 1 1
         A1 isn=1 option=H format=AA. record=32 -> 0 1 0 0
         L1 isn=1 format=AA. length=1 -> 0 1 1 0 32
         ET record=4243 -> 0 0 1 2
         RE length=2 -> 0 0 2 0 4243
         E1 isn=1 option=H -> 0 1 0 0
         BT -> 0 0 1 0
         L1 isn=1 format=AA. length=1 -> 0 1 1 0 32
         HI isn=1 -> 0 1 0 0
         HI user=2 isn=1 -> 145 0 0 0
         ET user=1 -> 0 0 1 3
         HI user=2 isn=1 -> 0 1 0 0",
    );
}

/// One with 70, 47 or 75 before the limit is met.
#[test]
fn limits_are_met_exactly() {
    let table = table(&[file(1, 4), field(b"AA", 1, b'A', b' ')]);
    Bench::new(&table, 3).run(
        "HI isn=1 -> 0 1 0 0
         HI isn=2 -> 0 2 0 0
         HI user=2 isn=3 -> 0 3 0 0
         HI isn=4 -> 70 0 0 0
         RI isn=3 -> 0 3 1 0
         HI isn=4 -> 0 4 0 0",
    );
    Bench::new(&table, 4).run(
        "OP isn=3 -> 0 0 0 0
         HI isn=1 -> 0 1 0 0
         HI isn=2 -> 0 2 0 0
         HI isn=3 -> 0 3 0 0
         HI isn=4 -> 47 0 0 0
         RI isn=2 -> 0 2 1 0
         HI isn=4 -> 0 4 0 0",
    );
    Bench::new(&table, 4).run(
        "N1 format=AA. record=31 -> 0 1 0 0
         N1 format=AA. record=31 -> 0 2 0 0
         HI isn=4 -> 0 4 0 0
         N1 user=2 format=AA. record=31 -> 0 3 0 0
         N1 format=AA. record=31 -> 75 0 0 0",
    );
}

/// The default hold limit is 64.
#[test]
fn default_hold_limit() {
    let table = table(&[file(1, 100), field(b"AA", 1, b'A', b' ')]);
    let mut bench = Bench::new(&table, 256);
    for isn in 1..=64 {
        bench.run(&format!("HI isn={isn} -> 0 {isn} 0 0"));
    }
    bench.run(
        "HI isn=65 -> 47 0 0 0
         HI user=2 isn=65 -> 0 65 0 0
         ET user=1 -> 0 0 64 1",
    );
}

/// "A quantity that is no count of entries or bytes."
#[test]
fn quantities_count() {
    bench().run(
        "N1 format=AA. record=31 -> 0 1 0 0
         HI isn=2 -> 0 2 0 0
         HI isn=1 file=2 -> 0 1 0 0
         RI -> 0 0 2 0
         RI -> 0 0 0 0
         HI isn=2 -> 0 2 0 0
         BT -> 0 0 2 0
         BT -> 0 0 0 0
         HI isn=2 -> 0 2 0 0
         ET -> 0 0 1 1
         ET -> 0 0 0 2
         CL -> 0 0 0 2",
    );
}
