//! One test for each row of the response table and each command to which it applies, named `row::command`; 10, 11 and
//! 12 are in `any_state.rs`.

mod common;
use common::{bench, good_call};
use second::state::Command;

// 22: unknown command, or option not named for it

#[test]
fn r22_unknown_command() {
    for code in [
        "XX", "hi", "H_", "IH", "L2", "L9", "A4", "E4", "N3", "S1", "RR",
    ] {
        let line = format!("{code} isn=1 clock=7 -> 22 0 0 0");
        let mut bench = bench();
        bench.run(&line);
        assert_eq!(bench.machine.state.clock, 0, "22 comes before the clock");
    }
}

/// Every option byte that is not named for the command gives 22; the named ones do not.
fn check_options(letters: &str, named: &[u8]) {
    let code: [u8; 2] = letters.as_bytes().try_into().expect(letters);
    let command = Command::from_code(code).expect(letters);
    for option in 0..=255u8 {
        let text = good_call(letters);
        let mut expected = call_lists::read_call(1, 1, text).expect(text);
        expected.call.option = option;
        let mut bench = bench();
        let (answer, _, _) = second::vectors::run_call(&mut bench.machine, &expected);
        let good = option == b' ' || named.contains(&option);
        assert_eq!(answer.response != 22, good, "{letters} option {option:02X}");
        assert_eq!(command.has_option(option), good);
    }
}

macro_rules! options {
    ($($command:ident $letters:expr, $named:expr;)*) => {
        mod r22 {
            use super::*;
            $(
                #[test]
                fn $command() {
                    check_options($letters, $named);
                }
            )*
        }
    };
}

options! {
    hi "HI", b"W";
    ri "RI", b"";
    l1 "L1", b"IC";
    l4 "L4", b"IW";
    a1 "A1", b"H";
    e1 "E1", b"H";
    n1 "N1", b"";
    n2 "N2", b"";
    et "ET", b"";
    bt "BT", b"";
    re "RE", b"";
    op "OP", b"A";
    cl "CL", b"";
    pe "PE", b"";
}

// 72: user not 1 to 32

fn check_users(letters: &str) {
    let call = good_call(letters);
    for user in [0, 33, 34, 128, 255] {
        let mut bench = bench();
        bench.run(&format!("{call} user={user} clock=7 -> 72 0 0 0"));
        assert_eq!(bench.machine.state.clock, 0, "72 comes before the clock");
    }
    for user in [1, 32] {
        let text = format!("{call} user={user}");
        let expected = call_lists::read_call(1, 1, &text).expect(call);
        let mut bench = bench();
        let (answer, _, _) = second::vectors::run_call(&mut bench.machine, &expected);
        assert_ne!(answer.response, 72);
    }
}

each_command! { r72, check_users:
    hi "HI"; ri "RI"; l1 "L1"; l4 "L4"; a1 "A1"; e1 "E1"; n1 "N1"; n2 "N2"; et "ET"; bt "BT"; re "RE"; op "OP";
    cl "CL"; pe "PE";
}

// 9: overdue mark

/// Another user's call backs out and marks user 1; his next call clears the mark and does nothing else.
fn check_mark(letters: &str) {
    let call = good_call(letters);
    let mut bench = bench();
    bench.run("N2 isn=3 format=AA. record=39 -> 0 3 0 0");
    bench.run("RE user=2 clock=901 length=64 -> 0 0 0 0");
    assert!(bench.machine.state.users[0].overdue);
    assert!(!bench.machine.state.users[0].in_transaction);
    assert!(bench.machine.records().is_empty());
    let marked = bench.machine.clone();
    bench.run(&format!("{call} user=1 -> 9 0 0 0"));
    let mut expected = marked.clone();
    expected.state.users[0].overdue = false;
    assert_eq!(bench.machine, expected, "only the mark goes");
    let text = format!("{call} user=1");
    let again = call_lists::read_call(1, 1, &text).expect(call);
    let (answer, _, _) = second::vectors::run_call(&mut bench.machine, &again);
    assert_ne!(answer.response, 9, "the mark is cleared once");
}

/// A call of the user himself that finds him overdue answers 9 and leaves no mark.
fn check_own_call(letters: &str) {
    let call = good_call(letters);
    let mut bench = bench();
    bench.run("N2 isn=3 format=AA. record=39 -> 0 3 0 0");
    bench.run(&format!("{call} clock=901 -> 9 0 0 0"));
    assert!(!bench.machine.state.users[0].overdue);
    assert!(!bench.machine.state.users[0].in_transaction);
    assert!(bench.machine.records().is_empty());
    assert_eq!(bench.machine.state.clock, 901);
}

each_command! { r9_mark, check_mark:
    hi "HI"; ri "RI"; l1 "L1"; l4 "L4"; a1 "A1"; e1 "E1"; n1 "N1"; n2 "N2"; et "ET"; bt "BT"; re "RE"; op "OP";
    cl "CL"; pe "PE";
}

each_command! { r9_own_call, check_own_call:
    hi "HI"; ri "RI"; l1 "L1"; l4 "L4"; a1 "A1"; e1 "E1"; n1 "N1"; n2 "N2"; et "ET"; bt "BT"; re "RE"; op "OP";
    cl "CL"; pe "PE";
}

// 9: OP or CL in a transaction

fn check_in_transaction(letters: &str) {
    let mut bench = bench();
    bench.run("OP limit=5 isn=2 -> 0 0 0 0");
    bench.run("N1 format=AA. record=31 -> 0 1 0 0");
    bench.run(&format!("{letters} limit=7 isn=3 clock=2 -> 9 0 0 0"));
    let user = bench.machine.state.users[0];
    assert!(bench.machine.records().is_empty(), "backed out");
    assert_eq!(bench.machine.state.entries, 0);
    assert!(user.session && !user.in_transaction && !user.overdue);
    assert_eq!(
        (user.time_limit, user.hold_limit),
        (5, 2),
        "nothing more is done"
    );
    bench.run(&format!("{letters} limit=7 isn=3 -> 0 0 0 0"));
}

each_command! { r9_in_transaction, check_in_transaction:
    op "OP";
    cl "CL";
}

// 211: another call while ready, after 9

/// Nothing but the clock goes on.
fn check_ready(letters: &str) {
    let call = good_call(letters);
    let mut bench = bench();
    bench.run(
        "N1 format=AA. record=31 -> 0 1 0 0
         PE -> 0 0 0 0",
    );
    let mut expected = bench.machine.clone();
    bench.run(&format!("{call} clock=7 -> 211 0 0 0"));
    expected.state.clock = 7;
    assert_eq!(bench.machine, expected);
}

each_command! { r211, check_ready:
    hi "HI"; ri "RI"; l1 "L1"; l4 "L4"; a1 "A1"; e1 "E1"; n1 "N1"; n2 "N2"; re "RE"; pe "PE";
}

row! { r211_not:
    et "N1 format=AA. record=31 -> 0 1 0 0
        PE -> 0 0 0 0
        ET length=65 -> 53 0 0 0
        HI isn=1 -> 211 0 0 0
        ET -> 0 0 1 1
        HI isn=1 -> 0 1 0 0";
    bt "N1 format=AA. record=31 -> 0 1 0 0
        PE -> 0 0 0 0
        BT -> 0 0 1 0
        HI isn=1 -> 0 1 0 0
        L1 isn=1 format=AA. length=1 -> 113 0 0 0";
    op "N1 format=AA. record=31 -> 0 1 0 0
        PE -> 0 0 0 0
        OP limit=5 -> 9 0 0 0
        L1 isn=1 format=AA. length=1 -> 113 0 0 0";
    cl "N1 format=AA. record=31 -> 0 1 0 0
        PE -> 0 0 0 0
        CL -> 9 0 0 0
        L1 isn=1 format=AA. length=1 -> 113 0 0 0";
    another_user "HI isn=1 -> 0 1 0 0
        PE -> 0 0 0 0
        HI user=2 isn=2 -> 0 2 0 0
        HI user=2 isn=1 -> 145 0 0 0";
    bad_calls "HI isn=1 -> 0 1 0 0
        PE -> 0 0 0 0
        XX -> 22 0 0 0
        HI option=I isn=1 -> 22 0 0 0
        HI user=0 isn=1 -> 72 0 0 0";
}

/// Time does not back a ready user out, but does so in his next transaction.
#[test]
fn ready_past_the_time_limit() {
    bench().run(
        "N1 format=AA. record=31 -> 0 1 0 0
         PE clock=900 -> 0 0 0 0
         L1 user=2 isn=1 format=AA. length=1 clock=901 -> 0 1 1 0 31
         ET user=1 clock=10901 -> 0 0 1 1
         HI isn=2 clock=10901 -> 0 2 0 0
         L1 user=2 isn=1 format=AA. length=1 clock=11802 -> 0 1 1 0 31
         PE user=1 -> 9 0 0 0
         PE -> 212 0 0 0",
    );
}

// 29: access-only user, call not OP, CL, L1, RE

fn check_access_only(letters: &str) {
    let call = good_call(letters);
    bench().run(&format!(
        "OP option=A -> 0 0 0 0
         {call} -> 29 0 0 0"
    ));
}

each_command! { r29, check_access_only:
    hi "HI"; ri "RI"; l4 "L4"; a1 "A1"; e1 "E1"; n1 "N1"; n2 "N2"; et "ET"; bt "BT"; pe "PE";
}

row! { r29_not:
    l1 "N1 user=2 format=AA. record=31 -> 0 1 0 0
        OP user=1 option=A -> 0 0 0 0
        L1 isn=1 format=AA. length=1 -> 0 1 1 0 31";
    re "OP option=A -> 0 0 0 0
        RE -> 0 0 0 0";
    op "OP option=A -> 0 0 0 0
        OP -> 0 0 0 0
        HI isn=1 -> 0 1 0 0";
    cl "OP option=A -> 0 0 0 0
        CL -> 0 0 0 0
        HI isn=1 -> 0 1 0 0";
}

// 212: PE without a transaction, after 29

row! { r212:
    pe "PE -> 212 0 0 0
        HI isn=1 -> 0 1 0 0
        BT -> 0 0 1 0
        PE -> 212 0 0 0
        HI isn=1 -> 0 1 0 0
        RI isn=0 -> 0 0 1 0
        PE -> 0 0 0 0";
    after_29 "OP option=A -> 0 0 0 0
        PE -> 29 0 0 0";
}

// 17: file not defined (HI to N2; not RI of ISN 0)

fn check_file(letters: &str) {
    let call = good_call(letters);
    for file in [0, 3, 16, 17, 255] {
        bench().run(&format!("{call} file={file} -> 17 0 0 0"));
    }
}

each_command! { r17, check_file:
    hi "HI"; ri "RI"; l1 "L1"; l4 "L4"; a1 "A1"; e1 "E1"; n1 "N1"; n2 "N2";
}

row! { r17_not:
    ri_of_0 "RI file=3 -> 0 0 0 0";
    et "ET file=3 -> 0 0 0 1";
    bt "BT file=3 -> 0 0 0 0";
    re "RE file=3 -> 0 0 0 0";
    op "OP file=3 -> 0 0 0 0";
    cl "CL file=3 -> 0 0 0 0";
    option_i "L1 file=3 option=I isn=1 format=AA. length=1 -> 17 0 0 0";
}

// 113: ISN 0 or above highest

fn check_range(letters: &str) {
    let call = good_call(letters);
    for isn in [4, 5, 4095, 65535] {
        let line = call.replace("isn=1", &format!("isn={isn}"));
        bench().run(&format!("{line} -> 113 0 0 0"));
    }
    if letters != "RI" {
        let line = call.replace("isn=1", "isn=0");
        bench().run(&format!("{line} -> 113 0 0 0"));
    }
}

each_command! { r113_range, check_range:
    hi "HI"; ri "RI"; l1 "L1"; l4 "L4"; a1 "A1"; e1 "E1"; n2 "N2";
}

row! { r113_range_not:
    ri_of_0 "RI isn=0 -> 0 0 0 0";
    n1 "N1 isn=4095 format=AA. record=31 -> 0 1 0 0";
    option_i "L1 isn=0 option=I format=AA. length=1 -> 3 0 0 0
              L4 isn=65535 option=I format=AA. length=1 -> 3 0 0 0";
    highest "HI isn=3 -> 0 3 0 0
             HI isn=2 file=2 -> 0 2 0 0
             HI isn=3 file=2 -> 113 0 0 0";
}

// 41: format buffer breaks its form, or unknown name

fn check_format(letters: &str) {
    let call = good_call(letters).replace(" format=AA.", "");
    bench().run(&format!("{call} -> 41 0 0 0"));
    for format in [
        "..", ",.", "AA", "AA,", "AA,.", ",AA.", "AA..", "AA.AB.", "AA,,AB.", "AA,AB", "AA.,",
        "A.", "AAA.", "AC.", "aa.", "AA,AC.", "AC,AA.", "AA;AB.", "DA.", "AAAB.", "*.",
    ] {
        bench().run(&format!("{call} format={format} -> 41 0 0 0"));
    }
}

each_command! { r41, check_format:
    l1 "L1"; l4 "L4"; a1 "A1"; n1 "N1"; n2 "N2";
}

row! { r41_not:
    hi "HI isn=1 format=? -> 0 1 0 0";
    ri "HI isn=1 -> 0 1 0 0
        RI isn=1 format=? -> 0 1 1 0";
    e1 "N1 format=AA. record=31 -> 0 1 0 0
        E1 isn=1 format=? -> 0 1 0 0";
    et "ET format=? -> 0 0 0 1";
    bt "BT format=? -> 0 0 0 0";
    re "RE format=? -> 0 0 0 0";
    op "OP format=? -> 0 0 0 0";
    cl "CL format=? -> 0 0 0 0";
}

// 44: field twice in A1, N1, N2

row! { r44:
    a1 "N1 format=AA. record=31 -> 0 1 0 0
        A1 isn=1 format=AB,AB. record=20202020 -> 44 0 0 0
        A1 isn=1 format=AA,AB,AA. record=31202031 -> 44 0 0 0";
    n1 "N1 format=AA,AA. record=3131 -> 44 0 0 0";
    n2 "N2 isn=1 format=AA,AB,AB. record=3120202020 -> 44 0 0 0";
}

row! { r44_not:
    l1 "N1 format=AA,AB. record=314243 -> 0 1 0 0
        L1 isn=1 format=AA,AB,AA,AB. length=6 -> 0 1 6 0 314243314243";
    l4 "N1 format=AA,AB. record=314243 -> 0 1 0 0
        L4 isn=1 format=AB,AB. length=4 -> 0 1 4 0 42434243";
}

// 53: record buffer shorter than the named fields, or than the data for RE; ET data over 64

row! { r53:
    l1 "N1 format=AA. record=31 -> 0 1 0 0
        L1 isn=1 format=AA,AB. length=2 -> 53 0 0 0
        L1 isn=1 format=AA,AA. length=1 -> 53 0 0 0
        L1 isn=1 format=AA. -> 53 0 0 0
        L1 isn=1 format=AA,AB. length=3 -> 0 1 3 0 312020";
    l4 "N1 format=AA. record=31 -> 0 1 0 0
        L4 isn=1 format=AA,AB. length=2 -> 53 0 0 0
        L4 isn=1 format=AA,AB. length=3 -> 0 1 3 0 312020";
    a1 "N1 format=AA. record=31 -> 0 1 0 0
        A1 isn=1 format=AA,AB. record=3142 -> 53 0 0 0
        A1 isn=1 format=AA,AB. record=314243 -> 0 1 0 0";
    n1 "N1 format=AA,AB. record=3142 -> 53 0 0 0
        N1 format=AA,AB. record=314243 -> 0 1 0 0";
    n2 "N2 isn=1 format=AA,AB. record=3142 -> 53 0 0 0
        N2 isn=1 format=AA,AB. record=31424344 -> 0 1 0 0";
    re "ET record=414243 -> 0 0 0 1
        RE length=2 -> 53 0 0 0
        RE -> 53 0 0 0
        RE length=3 -> 0 0 3 0 414243
        RE length=4 -> 0 0 3 0 414243";
    et "ET record=41 -> 0 0 0 1
        HI isn=1 -> 0 1 0 0
        ET length=65 -> 53 0 0 0
        RE length=64 -> 0 0 1 0 41
        RI isn=1 -> 0 1 1 0
        ET length=64 -> 0 0 0 2
        RE length=63 -> 53 0 0 0";
}

row! { r53_not:
    other_commands "HI isn=1 length=80 -> 0 1 0 0
                    RI isn=1 length=80 -> 0 1 1 0
                    BT length=80 -> 0 0 0 0
                    OP length=80 -> 0 0 0 0
                    CL length=80 -> 0 0 0 0
                    RE -> 0 0 0 0";
}

// 55: A1, N1, N2: a digit or sign not allowed

/// Values of DA and PA together, each with one bad half byte or byte.
const BAD_VALUES: [&str; 10] = [
    "2F30000F", "303A000F", "3020000F", "3041000F", "B030000F", "3030A00F", "30300A0F", "303000AF",
    "30300000", "30300009",
];

fn check_values(prefix: &str) {
    for value in BAD_VALUES {
        bench().run(&format!(
            "N1 file=2 format=PA. record=999C -> 0 1 0 0
             {prefix} file=2 format=DA,PA. record={value} -> 55 0 0 0"
        ));
    }
    for (value, stored) in [
        ("3039000C", "3039000F"),
        ("3930123D", "3930123D"),
        ("3030998F", "3030998F"),
        ("3030123A", "3030123F"),
        ("3030123B", "3030123D"),
        ("3030123E", "3030123F"),
        ("3030000B", "3030000F"),
    ] {
        let isn = if prefix.contains("isn=1") { 1 } else { 2 };
        bench().run(&format!(
            "N1 file=2 format=PA. record=999C -> 0 1 0 0
             {prefix} file=2 format=DA,PA. record={value} -> 0 {isn} 0 0
             L1 isn={isn} file=2 format=DA,PA. length=4 -> 0 {isn} 4 0 {stored}"
        ));
    }
}

each_command! { r55, check_values:
    a1 "A1 isn=1";
    n1 "N1";
    n2 "N2 isn=2";
}

row! { r55_not:
    fields_not_named "N1 file=2 format=BA. record=FF3A0009 -> 0 1 0 0";
    reading "N1 file=2 format=BA. record=01 -> 0 1 0 0
             L1 file=2 isn=1 format=DA,PA. record=FFFFFFFF -> 0 1 4 0 3030000F";
    formats_a_and_b "N1 format=AA,AB. record=00FFFF -> 0 1 0 0
                     N1 file=2 format=BA. record=FF -> 0 1 0 0";
}

// 3: option `I` finds none

row! { r3:
    l1 "L1 isn=1 option=I format=AA. length=1 -> 3 0 0 0
        N2 isn=2 format=AA. record=31 -> 0 2 0 0
        L1 isn=1 option=I format=AA. length=1 -> 0 2 1 0 31
        L1 isn=2 option=I format=AA. length=1 -> 0 2 1 0 31
        L1 isn=3 option=I format=AA. length=1 -> 3 0 0 0
        L1 isn=0 option=I format=AA. length=1 -> 0 2 1 0 31";
    l4 "L4 isn=1 option=I format=AA. length=1 -> 3 0 0 0
        N2 isn=2 format=AA. record=31 -> 0 2 0 0
        ET -> 0 0 1 1
        L4 isn=1 option=I format=AA. length=1 -> 0 2 1 0 31
        BT -> 0 0 1 0
        L4 isn=3 option=I format=AA. length=1 -> 3 0 0 0
        BT -> 0 0 0 0";
}

// 20: option W where another user holds the ISN
// 145: another user holds the ISN (not L1, not RI)

/// Record 1 is there and user 2 holds it and the empty ISN 2.
const HELD: &str = "N1 format=AA. record=31 -> 0 1 0 0
                    ET -> 0 0 1 1
                    HI user=2 isn=1 -> 0 1 0 0
                    HI isn=2 -> 0 2 0 0";

fn check_held(call: &str) {
    bench().run(&format!("{HELD}\n{call}"));
}

each_command! { r20, check_held:
    hi "HI user=1 option=W isn=1 -> 20 0 0 0
        HI option=W isn=1 -> 20 0 0 0
        HI option=W isn=2 -> 20 0 0 0
        HI option=W isn=3 -> 0 3 0 0
        HI user=2 option=W isn=1 -> 0 1 0 0";
    l4 "L4 user=1 option=W isn=1 format=AA. length=1 -> 20 0 0 0
        L4 option=W isn=1 format=AA. length=1 -> 20 0 0 0
        L4 option=W isn=2 format=AA. length=1 -> 20 0 0 0
        L4 option=W isn=3 format=AA. length=1 -> 113 0 0 0
        L4 user=2 option=W isn=1 format=AA. length=1 -> 0 1 1 0 31";
}

each_command! { r20_not_at_the_hold_limit, check_held:
    hi "OP user=1 isn=1 -> 0 0 0 0
        HI file=2 isn=1 -> 0 1 0 0
        HI option=W isn=1 -> 145 0 0 0
        HI user=2 option=W file=2 isn=1 -> 20 0 0 0";
    l4 "OP user=1 isn=1 -> 0 0 0 0
        HI file=2 isn=1 -> 0 1 0 0
        L4 option=W isn=1 format=AA. length=1 -> 145 0 0 0";
}

each_command! { r145, check_held:
    hi "HI user=1 isn=1 -> 145 0 0 0
        HI isn=2 -> 145 0 0 0
        HI isn=3 -> 0 3 0 0
        HI user=2 isn=1 -> 0 1 0 0";
    l4 "L4 user=1 isn=1 format=AA. length=1 -> 145 0 0 0
        L4 isn=1 option=I format=AA. length=1 -> 145 0 0 0
        L4 isn=2 format=AA. length=1 -> 145 0 0 0
        L4 user=2 isn=1 format=AA. length=1 -> 0 1 1 0 31";
    a1 "A1 user=1 isn=1 format=AA. record=32 -> 145 0 0 0
        A1 isn=1 option=H format=AA. record=32 -> 145 0 0 0
        A1 isn=2 option=H format=AA. record=32 -> 145 0 0 0";
    e1 "E1 user=1 isn=1 -> 145 0 0 0
        E1 isn=1 option=H -> 145 0 0 0
        E1 isn=2 option=H -> 145 0 0 0";
    n2 "N2 user=1 isn=2 format=AA. record=32 -> 145 0 0 0
        N2 isn=1 format=AA. record=32 -> 145 0 0 0";
}

each_command! { r145_not, check_held:
    l1 "L1 user=1 isn=1 format=AA. length=1 -> 0 1 1 0 31
        L1 isn=2 format=AA. length=1 -> 113 0 0 0";
    ri "RI user=1 isn=1 -> 144 0 0 0";
    n1 "N1 user=1 format=AA. record=32 -> 0 3 0 0";
}

// 113: no record (L1, L4, A1, E1), or one there (N2)

row! { r113_record:
    l1 "L1 isn=1 format=AA. length=1 -> 113 0 0 0
        HI isn=1 -> 0 1 0 0
        L1 isn=1 format=AA. length=1 -> 113 0 0 0";
    l4 "L4 isn=1 format=AA. length=1 -> 113 0 0 0
        HI isn=1 -> 0 1 0 0
        L4 isn=1 format=AA. length=1 -> 113 0 0 0";
    a1 "A1 isn=1 option=H format=AA. record=31 -> 113 0 0 0
        A1 isn=1 format=AA. record=31 -> 113 0 0 0
        HI isn=1 -> 0 1 0 0
        A1 isn=1 format=AA. record=31 -> 113 0 0 0";
    e1 "E1 isn=1 option=H -> 113 0 0 0
        E1 isn=1 -> 113 0 0 0
        HI isn=1 -> 0 1 0 0
        E1 isn=1 -> 113 0 0 0";
    n2 "N2 isn=1 format=AA. record=31 -> 0 1 0 0
        N2 isn=1 format=AA. record=32 -> 113 0 0 0
        ET -> 0 0 1 1
        N2 isn=1 format=AA. record=32 -> 113 0 0 0
        HI isn=1 -> 0 1 0 0
        N2 isn=1 format=AA. record=32 -> 113 0 0 0";
}

// 144: not held by the user

row! { r144:
    a1 "N1 format=AA. record=31 -> 0 1 0 0
        ET -> 0 0 1 1
        A1 isn=1 format=AA. record=32 -> 144 0 0 0
        A1 isn=1 option=H format=AA. record=32 -> 0 1 0 0
        A1 isn=1 format=AA. record=33 -> 0 1 0 0";
    e1 "N1 format=AA. record=31 -> 0 1 0 0
        ET -> 0 0 1 1
        E1 isn=1 -> 144 0 0 0
        E1 isn=1 option=H -> 0 1 0 0";
    ri "RI isn=1 -> 144 0 0 0
        HI isn=1 -> 0 1 0 0
        RI isn=1 -> 0 1 1 0
        RI isn=1 -> 144 0 0 0
        HI isn=1 file=2 -> 0 1 0 0
        RI isn=1 file=1 -> 144 0 0 0";
}

// 146: RI of a changed entry

row! { r146:
    ri "N1 format=AA. record=31 -> 0 1 0 0
        RI isn=1 -> 146 0 0 0
        ET -> 0 0 1 1
        HI isn=1 -> 0 1 0 0
        E1 isn=1 -> 0 1 0 0
        RI isn=1 -> 146 0 0 0
        HI isn=2 -> 0 2 0 0
        RI isn=0 -> 0 0 1 0
        RI isn=2 -> 144 0 0 0
        RI isn=1 -> 146 0 0 0";
}

// 75: N1 finds no ISN

row! { r75:
    n1_full "N1 format=AA. record=31 -> 0 1 0 0
             N1 format=AA. record=32 -> 0 2 0 0
             N1 format=AA. record=33 -> 0 3 0 0
             N1 format=AA. record=34 -> 75 0 0 0
             N1 file=2 format=BA. record=01 -> 0 1 0 0";
    n1_held "N2 isn=1 format=AA. record=31 -> 0 1 0 0
             HI isn=2 -> 0 2 0 0
             HI user=2 isn=3 -> 0 3 0 0
             N1 user=1 format=AA. record=34 -> 75 0 0 0
             N1 user=3 format=AA. record=34 -> 75 0 0 0";
}

// 47 and 70: new entry, user at or past his hold limit; new entry, queue has H

/// Record 1 is there, ISNs 2 and 3 are empty; user 1 may hold one ISN and holds one of file 2.
const AT_LIMIT: &str = "N1 user=2 format=AA. record=31 -> 0 1 0 0
                        ET -> 0 0 1 1
                        OP user=1 isn=1 -> 0 0 0 0
                        HI isn=1 file=2 -> 0 1 0 0";

/// The call is refused at the limit, and good where the limit is one higher.
fn check_limit(call: &str) {
    bench().run(&format!("{AT_LIMIT}\n{call} -> 47 0 0 0"));
    let mut bench = bench();
    bench.run(&AT_LIMIT.replace("isn=1 -> 0 0 0 0", "isn=2 -> 0 0 0 0"));
    assert_eq!(response(&mut bench, call), 0, "{call}");
}

fn response(bench: &mut common::Bench, call: &str) -> u16 {
    let expected = call_lists::read_call(1, 1, call).expect(call);
    let (answer, _, _) = second::vectors::run_call(&mut bench.machine, &expected);
    answer.response
}

each_command! { r47, check_limit:
    hi "HI isn=1";
    l4 "L4 isn=1 format=AA. length=1";
    l4_option_i "L4 isn=1 option=I format=AA. length=1";
    a1 "A1 isn=1 option=H format=AA. record=32";
    e1 "E1 isn=1 option=H";
    n1 "N1 format=AA. record=32";
    n2 "N2 isn=2 format=AA. record=32";
}

/// Record 1 is there, ISNs 2 and 3 are empty; users 2, 3 and 4 fill a queue of four between them.
const FULL: &str = "N1 user=2 format=AA. record=31 -> 0 1 0 0
                    ET -> 0 0 1 1
                    HI isn=1 file=2 -> 0 1 0 0
                    HI user=3 isn=2 file=2 -> 0 2 0 0
                    HI user=3 isn=3 -> 0 3 0 0
                    HI user=4 isn=2 -> 0 2 0 0";

/// The call is refused where the queue has four entries, and good where it may have five.
fn check_full(call: &str) {
    bench().run(&format!("{FULL}\n{call} user=1 -> 70 0 0 0"));
    let mut bench = common::Bench::new(&common::two_files(), 5);
    bench.run(FULL);
    assert_eq!(response(&mut bench, call), 0, "{call}");
}

each_command! { r70, check_full:
    hi "HI isn=1";
    l4 "L4 isn=1 format=AA. length=1";
    l4_option_i "L4 isn=1 option=I format=AA. length=1";
    a1 "A1 isn=1 option=H format=AA. record=32";
    e1 "E1 isn=1 option=H";
}

/// N1 and N2 need an empty ISN that nobody holds: here file 2 has only such ones and file 1 takes the four holds.
#[test]
fn r70_n1_and_n2() {
    let full = "N1 user=2 format=AA. record=31 -> 0 1 0 0
                N1 format=AA. record=32 -> 0 2 0 0
                N1 format=AA. record=33 -> 0 3 0 0
                HI isn=1 file=2 -> 0 1 0 0";
    for (call, refused) in [
        ("N1 user=1 file=2 format=BA. record=01", 70),
        ("N2 user=1 file=2 isn=2 format=BA. record=01", 70),
        ("N2 user=2 file=2 isn=2 format=BA. record=01", 70),
    ] {
        bench().run(&format!("{full}\n{call} -> {refused} 0 0 0"));
    }
    bench().run(&format!(
        "{full}\nN2 user=2 file=2 isn=1 format=BA. record=01 -> 0 1 0 0"
    ));
}

/// The user's own entry is no new one: neither 47 nor 70.
#[test]
fn own_entry_is_no_new_one() {
    let mut bench = common::Bench::new(&common::two_files(), 1);
    bench.run(
        "OP isn=1 -> 0 0 0 0
         N2 isn=1 format=AA. record=31 -> 0 1 0 0
         HI isn=1 -> 0 1 0 0
         L4 isn=1 format=AA. length=1 -> 0 1 1 0 31
         A1 isn=1 option=H format=AA. record=32 -> 0 1 0 0
         E1 isn=1 option=H -> 0 1 0 0
         N2 isn=1 format=AA. record=33 -> 0 1 0 0
         HI isn=2 -> 47 0 0 0
         OP user=2 -> 0 0 0 0
         HI isn=2 -> 70 0 0 0
         ET user=1 -> 0 0 1 1",
    );
}

// 198: a unique value taken

row! { r198:
    a1 "N1 format=AA. record=31 -> 0 1 0 0
        N1 format=AA. record=32 -> 0 2 0 0
        A1 isn=2 format=AA. record=31 -> 198 0 0 0
        A1 isn=2 format=AA. record=32 -> 0 2 0 0
        A1 isn=2 format=AA. record=20 -> 0 2 0 0
        A1 isn=1 format=AA. record=20 -> 198 0 0 0
        A1 isn=2 format=AB. record=3131 -> 0 2 0 0";
    n1 "N1 format=AA. record=31 -> 0 1 0 0
        N1 format=AA. record=31 -> 198 0 0 0
        N1 format=AB. record=3131 -> 0 2 0 0
        N1 format=AB. record=3232 -> 198 0 0 0
        N1 format=AA. record=20 -> 198 0 0 0
        N1 format=AA. record=32 -> 0 3 0 0";
    n2 "N2 isn=3 format=AA. record=31 -> 0 3 0 0
        N2 isn=1 format=AA. record=31 -> 198 0 0 0
        N2 isn=1 format=AB. record=3131 -> 0 1 0 0
        N2 isn=2 format=AB. record=3131 -> 198 0 0 0";
    by_the_image_of_a1 "N1 format=AA. record=31 -> 0 1 0 0
        ET -> 0 0 1 1
        A1 isn=1 option=H format=AA. record=32 -> 0 1 0 0
        N1 user=2 format=AA. record=31 -> 198 0 0 0
        N2 isn=2 format=AA. record=31 -> 198 0 0 0
        N2 isn=2 format=AA. record=33 -> 0 2 0 0
        A1 isn=2 format=AA. record=31 -> 198 0 0 0
        N1 user=1 format=AA. record=31 -> 0 3 0 0";
    by_the_image_of_e1 "N1 format=AA. record=31 -> 0 1 0 0
        ET -> 0 0 1 1
        E1 isn=1 option=H -> 0 1 0 0
        N2 user=2 isn=2 format=AA. record=31 -> 198 0 0 0
        ET user=1 -> 0 0 1 2
        N2 user=2 isn=2 format=AA. record=31 -> 0 2 0 0";
    not_by_the_image_of_an_add "N2 isn=1 format=AA. record=31 -> 0 1 0 0
        E1 isn=1 -> 0 1 0 0
        N2 user=2 isn=2 format=AA. record=31 -> 0 2 0 0";
    not_by_the_old_image_of_an_add "N1 format=AA. record=31 -> 0 1 0 0
        ET -> 0 0 1 1
        A1 isn=1 option=H format=AA. record=32 -> 0 1 0 0
        ET -> 0 0 1 2
        N2 isn=2 format=AA. record=33 -> 0 2 0 0
        N2 user=2 isn=3 format=AA. record=31 -> 0 3 0 0";
    not_by_the_image_of_a_hold "N1 format=AA. record=31 -> 0 1 0 0
        ET -> 0 0 1 1
        A1 isn=1 option=H format=AA. record=32 -> 0 1 0 0
        ET -> 0 0 1 2
        HI isn=1 -> 0 1 0 0
        N2 user=2 isn=3 format=AA. record=31 -> 0 3 0 0";
    not_by_another_file "N1 format=AA. record=31 -> 0 1 0 0
        N1 file=2 format=PA. record=001F -> 0 1 0 0
        N1 file=2 format=PA. record=002F -> 0 2 0 0";
}

// The order of the rows, where two can hold at once

row! { order:
    r22_before_72 "XX user=0 -> 22 0 0 0
                   HI user=0 option=H -> 22 0 0 0";
    r9_before_29_and_17 "HI isn=1 -> 0 1 0 0
                         HI file=9 clock=901 -> 9 0 0 0";
    r29_before_17 "OP option=A -> 0 0 0 0
                   HI file=9 isn=1 -> 29 0 0 0";
    r17_before_113 "HI file=9 isn=0 -> 17 0 0 0
                    A1 file=9 isn=0 format=? -> 17 0 0 0";
    r113_before_41 "A1 isn=0 format=? -> 113 0 0 0
                    L1 isn=4 format=? -> 113 0 0 0";
    r41_before_44_and_53 "N1 format=AA,AA,ZZ. -> 41 0 0 0
                          N1 format=AA,AA -> 41 0 0 0";
    r44_before_53 "N1 format=AA,AA. -> 44 0 0 0";
    r53_before_55 "N1 file=2 format=DA,PA. record=FFFFFF -> 53 0 0 0";
    r53_before_3 "L1 option=I format=AA. -> 53 0 0 0";
    r55_before_145 "HI user=2 isn=1 file=2 -> 0 1 0 0
                    N2 user=1 isn=1 file=2 format=DA. record=FFFF -> 55 0 0 0";
    r53_before_20 "HI user=2 isn=1 -> 0 1 0 0
                   L4 user=1 option=W isn=1 format=AA. -> 53 0 0 0
                   L4 option=W isn=1 format=AC. -> 41 0 0 0";
    r20_before_113 "HI user=2 isn=1 -> 0 1 0 0
                    L4 user=1 option=W isn=1 format=AA. length=1 -> 20 0 0 0";
    r20_before_70 "HI user=2 isn=1 -> 0 1 0 0
                   HI isn=2 -> 0 2 0 0
                   HI isn=3 -> 0 3 0 0
                   HI file=2 isn=1 -> 0 1 0 0
                   HI user=1 option=W isn=1 -> 20 0 0 0
                   HI option=W file=2 isn=2 -> 70 0 0 0";
    r145_before_113 "HI user=2 isn=1 -> 0 1 0 0
                     L4 user=1 isn=1 format=AA. length=1 -> 145 0 0 0";
    r113_before_144 "A1 isn=1 format=AA. record=31 -> 113 0 0 0
                     E1 isn=1 -> 113 0 0 0";
    r113_before_47 "OP isn=1 -> 0 0 0 0
                    HI isn=3 -> 0 3 0 0
                    E1 isn=1 option=H -> 113 0 0 0";
    r144_before_198 "N1 format=AA. record=31 -> 0 1 0 0
                     N1 format=AA. record=32 -> 0 2 0 0
                     ET -> 0 0 2 1
                     A1 isn=1 format=AA. record=32 -> 144 0 0 0
                     A1 isn=1 option=H format=AA. record=32 -> 198 0 0 0
                     BT -> 0 0 0 0";
    r75_before_47 "OP isn=3 -> 0 0 0 0
                   HI isn=1 -> 0 1 0 0
                   HI isn=2 -> 0 2 0 0
                   HI isn=3 -> 0 3 0 0
                   N1 format=AA. record=31 -> 75 0 0 0";
    r47_before_70 "OP isn=4 -> 0 0 0 0
                   HI isn=1 -> 0 1 0 0
                   HI isn=2 -> 0 2 0 0
                   HI isn=3 -> 0 3 0 0
                   HI isn=1 file=2 -> 0 1 0 0
                   HI isn=2 file=2 -> 47 0 0 0
                   HI user=2 isn=2 file=2 -> 70 0 0 0";
    r70_before_198 "N1 format=AA. record=31 -> 0 1 0 0
                    HI isn=2 -> 0 2 0 0
                    HI isn=1 file=2 -> 0 1 0 0
                    HI isn=2 file=2 -> 0 2 0 0
                    N2 isn=3 format=AA. record=31 -> 70 0 0 0
                    RI isn=2 -> 0 2 1 0
                    N2 isn=3 format=AA. record=31 -> 198 0 0 0";
    r47_before_198 "OP isn=1 -> 0 0 0 0
                    N1 format=AA. record=31 -> 0 1 0 0
                    N2 isn=3 format=AA. record=31 -> 47 0 0 0";
}
