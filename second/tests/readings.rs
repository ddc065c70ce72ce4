//! Points that the rules of single commands fix, one by one, and those that document 01 leaves to a reading.

mod common;
use common::{bench, field, file, table, two_files, Bench};

row! { holds:
    hi_of_a_record_or_none "HI isn=1 -> 0 1 0 0
                            N2 isn=1 format=AA. record=31 -> 0 1 0 0
                            ET -> 0 0 1 1
                            HI isn=1 -> 0 1 0 0";
    ri_of_0_in_every_file "HI isn=1 -> 0 1 0 0
                           HI isn=1 file=2 -> 0 1 0 0
                           N2 isn=2 format=AA. record=31 -> 0 2 0 0
                           HI user=2 isn=3 -> 0 3 0 0
                           RI user=1 file=99 -> 0 0 2 0
                           HI user=3 isn=1 -> 0 1 0 0
                           HI isn=2 -> 145 0 0 0
                           HI isn=3 -> 145 0 0 0";
    ri_of_0_with_one_entry_answers_isn_0 "HI isn=1 -> 0 1 0 0
                                          RI -> 0 0 1 0";
    transaction_without_entries_stays_open "HI isn=1 -> 0 1 0 0
                                            RI isn=1 -> 0 1 1 0
                                            OP -> 9 0 0 0
                                            OP -> 0 0 0 0";
    transaction_without_entries_turns_overdue "HI isn=1 clock=0 -> 0 1 0 0
                                               RI -> 0 0 1 0
                                               N1 format=AA. record=31 clock=900 -> 0 1 0 0
                                               ET clock=901 -> 9 0 0 0
                                               L1 isn=1 format=AA. length=1 -> 113 0 0 0";
    hold_of_another_file_is_no_hold "HI isn=1 -> 0 1 0 0
                                     HI user=2 isn=1 file=2 -> 0 1 0 0";
    l4_of_a_record_holds_it "N1 format=AA. record=31 -> 0 1 0 0
                             ET -> 0 0 1 1
                             L4 isn=1 format=AA. length=1 -> 0 1 1 0 31
                             HI user=2 isn=1 -> 145 0 0 0";
    l4_option_i_holds_what_it_finds "N2 isn=2 format=AA. record=31 -> 0 2 0 0
                                     ET -> 0 0 1 1
                                     L4 option=I format=AA. length=1 -> 0 2 1 0 31
                                     HI user=2 isn=1 -> 0 1 0 0
                                     HI isn=2 -> 145 0 0 0";
    l1_sees_open_changes_of_others "N1 format=AA. record=31 -> 0 1 0 0
                                    L1 user=2 isn=1 format=AA. length=1 -> 0 1 1 0 31
                                    L1 option=I format=AA. length=1 -> 0 1 1 0 31
                                    HI isn=2 -> 0 2 0 0
                                    BT user=1 -> 0 0 1 0
                                    L1 isn=1 format=AA. length=1 -> 113 0 0 0";
}

row! { changes:
    e1_then_n2_sets_nulls "N1 format=AA,AB. record=314142 -> 0 1 0 0
                           ET -> 0 0 1 1
                           E1 isn=1 option=H -> 0 1 0 0
                           N2 isn=1 format=AA. record=31 -> 0 1 0 0
                           L1 isn=1 format=AA,AB. length=3 -> 0 1 3 0 312020
                           BT -> 0 0 1 0
                           L1 isn=1 format=AA,AB. length=3 -> 0 1 3 0 314142";
    own_given_up_value_may_be_used_again "N1 format=AA. record=31 -> 0 1 0 0
                           ET -> 0 0 1 1
                           E1 isn=1 option=H -> 0 1 0 0
                           N1 format=AA. record=31 -> 0 2 0 0
                           BT -> 0 0 2 0
                           L1 isn=1 format=AA. length=1 -> 0 1 1 0 31
                           L1 isn=2 format=AA. length=1 -> 113 0 0 0";
    a1_on_his_own_emptied_isn "N1 format=AA. record=31 -> 0 1 0 0
                               E1 isn=1 -> 0 1 0 0
                               A1 isn=1 format=AA. record=31 -> 113 0 0 0
                               E1 isn=1 -> 113 0 0 0
                               HI user=2 isn=1 -> 145 0 0 0
                               N2 user=1 isn=1 format=AA. record=32 -> 0 1 0 0
                               BT -> 0 0 1 0
                               L1 isn=1 format=AA. length=1 -> 113 0 0 0";
    n2_at_a_held_empty_isn "HI isn=1 -> 0 1 0 0
                            N2 isn=1 format=AA. record=31 -> 0 1 0 0
                            BT -> 0 0 1 0
                            L1 isn=1 format=AA. length=1 -> 113 0 0 0";
    nulls "N1 file=2 format=BA. record=01 -> 0 1 0 0
           L1 file=2 isn=1 format=DA,PA,BA. length=5 -> 0 1 5 0 3030000F01
           N1 format=AB. record=4142 -> 0 1 0 0
           L1 isn=1 format=AA. length=1 -> 0 1 1 0 20
           N2 file=2 isn=2 format=PA. record=001C -> 0 2 0 0
           L1 file=2 isn=2 format=BA. length=1 -> 0 2 1 0 00";
    option_h_on_a_held_isn "N1 format=AA. record=31 -> 0 1 0 0
                            A1 isn=1 option=H format=AA. record=32 -> 0 1 0 0
                            E1 isn=1 option=H -> 0 1 0 0
                            ET -> 0 0 1 1";
    values_in_the_order_of_the_names "N1 format=AB,AA. record=414231 -> 0 1 0 0
                                      L1 isn=1 format=AA,AB. length=3 -> 0 1 3 0 314142
                                      A1 isn=1 format=AB,AA. record=434432 -> 0 1 0 0
                                      L1 isn=1 format=AB,AA,AB. length=6 -> 0 1 5 0 4344324344";
}

// Document 02, No. 5: "The format buffer `.` alone now means no fields." That nothing is written past a quantity, the bench checks.
row! { no_fields:
    reading_writes_nothing "N1 format=AA,AB. record=314142 -> 0 1 0 0
                            L1 isn=1 format=. -> 0 1 0 0
                            L1 isn=1 format=. record=EEEEEE -> 0 1 0 0
                            L4 isn=1 format=. record=EEEEEE -> 0 1 0 0
                            L1 option=I format=. -> 0 1 0 0
                            L4 option=I isn=2 format=. -> 3 0 0 0";
    l4_holds "N1 format=AA. record=31 -> 0 1 0 0
              ET -> 0 0 1 1
              L4 isn=2 format=. -> 113 0 0 0
              L4 isn=4 format=. -> 113 0 0 0
              OP -> 0 0 0 0
              L4 isn=1 format=. -> 0 1 0 0
              OP -> 9 0 0 0
              L4 isn=1 format=. -> 0 1 0 0
              L4 user=2 isn=1 format=. -> 145 0 0 0
              L1 isn=1 format=. -> 0 1 0 0
              RI user=1 isn=1 -> 0 1 1 0";
    a1_wants_the_hold "N1 format=AA. record=31 -> 0 1 0 0
                       ET -> 0 0 1 1
                       A1 isn=1 format=. -> 144 0 0 0
                       A1 isn=2 option=H format=. -> 113 0 0 0
                       A1 isn=1 option=H format=. -> 0 1 0 0
                       A1 user=2 isn=1 option=H format=. -> 145 0 0 0";
    a1_is_a_change "N1 format=AA,AB. record=314142 -> 0 1 0 0
                    ET -> 0 0 1 1
                    A1 isn=1 option=H format=. record=325858 -> 0 1 0 0
                    L1 isn=1 format=AA,AB. length=3 -> 0 1 3 0 314142
                    RI isn=1 -> 146 0 0 0
                    RI -> 0 0 0 0
                    N1 user=2 format=AA. record=31 -> 198 0 0 0
                    BT user=1 -> 0 0 1 0
                    L1 isn=1 format=AA,AB. length=3 -> 0 1 3 0 314142";
    a1_keeps_the_image_of_the_first_change "N1 format=AA. record=31 -> 0 1 0 0
                    ET -> 0 0 1 1
                    A1 isn=1 option=H format=. -> 0 1 0 0
                    A1 isn=1 format=AA. record=32 -> 0 1 0 0
                    A1 isn=1 format=. -> 0 1 0 0
                    BT -> 0 0 1 0
                    L1 isn=1 format=AA. length=1 -> 0 1 1 0 31";
    nulls_are_added "N1 format=. -> 0 1 0 0
                     L1 isn=1 format=AA,AB. length=3 -> 0 1 3 0 202020
                     N1 file=2 format=. record=FF -> 0 1 0 0
                     L1 file=2 isn=1 format=DA,PA,BA. length=5 -> 0 1 5 0 3030000F00
                     N1 format=. -> 198 0 0 0
                     N2 isn=3 format=. -> 198 0 0 0
                     N2 file=2 isn=2 format=. -> 198 0 0 0";
}

/// "Changes no byte": lent bytes are not put in stored form, and a doubled value that is not named is not judged.
#[test]
fn a1_of_no_fields_leaves_lent_bytes() {
    let mut bench = bench();
    bench.run(
        "N1 file=2 format=PA. record=001C -> 0 1 0 0
         N1 file=2 format=PA. record=002C -> 0 2 0 0
         ET -> 0 0 2 1",
    );
    let store = &mut bench.machine.store;
    let records = 3 * 4;
    store[records..records + 12].copy_from_slice(b"\x01xy\x0A\xBC\x00\x01??\x0A\xBC\x00");
    let lent = store.clone();
    bench.run("A1 file=2 isn=1 option=H format=. -> 0 1 0 0");
    assert_eq!(bench.machine.store, lent);
    bench.run("BT -> 0 0 1 0");
    assert_eq!(bench.machine.store, lent);
}

row! { n1:
    after_the_last_one_given "N1 format=AA. record=31 -> 0 1 0 0
                              E1 isn=1 -> 0 1 0 0
                              ET -> 0 0 1 1
                              N1 format=AA. record=32 -> 0 2 0 0
                              N1 format=AA. record=33 -> 0 3 0 0
                              N1 format=AA. record=34 -> 0 1 0 0
                              N1 format=AA. record=35 -> 75 0 0 0";
    bt_does_not_turn_the_mark_back "N1 format=AA. record=31 -> 0 1 0 0
                                    BT -> 0 0 1 0
                                    N1 format=AA. record=31 -> 0 2 0 0";
    n2_does_not_move_the_mark "N2 isn=2 format=AA. record=31 -> 0 2 0 0
                               N1 format=AA. record=32 -> 0 1 0 0
                               N1 format=AA. record=33 -> 0 3 0 0";
    refused_leaves_the_mark "N1 format=AA. record=31 -> 0 1 0 0
                             N1 format=AA. record=31 -> 198 0 0 0
                             N1 format=AA. record=32 -> 0 2 0 0";
    the_marks_own_isn_comes_last "N2 isn=2 format=AA. record=32 -> 0 2 0 0
                                  N2 isn=3 format=AA. record=33 -> 0 3 0 0
                                  N1 format=AA. record=31 -> 0 1 0 0
                                  E1 isn=1 -> 0 1 0 0
                                  ET -> 0 0 3 1
                                  N1 format=AA. record=34 -> 0 1 0 0";
    each_file_has_its_mark "N1 format=AA. record=31 -> 0 1 0 0
                            N1 file=2 format=BA. record=01 -> 0 1 0 0
                            N1 format=AA. record=32 -> 0 2 0 0";
}

row! { ends:
    et_and_bt_without_a_transaction "BT -> 0 0 0 0
                                     ET record=41 -> 0 0 0 1
                                     ET -> 0 0 0 2
                                     RE length=1 -> 0 0 1 0 41";
    empty_et_data_leaves_the_old "ET record=4142 -> 0 0 0 1
                                  ET -> 0 0 0 2
                                  RE length=9 -> 0 0 2 0 4142
                                  ET record=43 -> 0 0 0 3
                                  RE length=9 -> 0 0 1 0 43";
    et_data_outlives_cl_and_bt "ET record=4142 -> 0 0 0 1
                                HI isn=1 -> 0 1 0 0
                                BT record=99 -> 0 0 1 0
                                CL record=99 -> 0 0 0 1
                                RE length=2 -> 0 0 2 0 4142
                                OP record=0000 -> 0 0 0 0
                                RE length=2 -> 0 0 2 0 4142";
    et_data_is_the_users_own "ET record=41 -> 0 0 0 1
                              RE user=2 length=9 -> 0 0 0 0";
    op_sets_sequence_0 "ET -> 0 0 0 1
                        ET -> 0 0 0 2
                        OP -> 0 0 0 0
                        ET -> 0 0 0 1
                        CL -> 0 0 0 1
                        CL -> 0 0 0 0
                        ET -> 0 0 0 1";
    access_only_ends_by_blank_and_by_cl "OP option=A -> 0 0 0 0
                        HI isn=1 -> 29 0 0 0
                        OP -> 0 0 0 0
                        HI isn=1 -> 0 1 0 0
                        BT -> 0 0 1 0
                        OP option=A -> 0 0 0 0
                        CL -> 0 0 0 0
                        HI isn=1 -> 0 1 0 0";
    limits_end_with_the_session "OP isn=1 limit=1 -> 0 0 0 0
                        CL -> 0 0 0 0
                        HI isn=1 -> 0 1 0 0
                        HI isn=2 clock=900 -> 0 2 0 0
                        OP clock=901 -> 9 0 0 0
                        OP isn=1 limit=1 -> 0 0 0 0
                        OP -> 0 0 0 0
                        HI isn=1 -> 0 1 0 0
                        HI isn=2 clock=1801 -> 0 2 0 0";
    op_and_cl_in_a_transaction_set_no_mark "HI isn=1 -> 0 1 0 0
                        CL -> 9 0 0 0
                        HI isn=1 -> 0 1 0 0
                        OP -> 9 0 0 0
                        HI isn=1 -> 0 1 0 0";
}

row! { clock:
    the_greatest_is_kept "HI isn=1 clock=100 -> 0 1 0 0
                          BT clock=0 -> 0 0 1 0
                          HI isn=1 clock=50 -> 0 1 0 0
                          HI isn=2 clock=1000 -> 0 2 0 0
                          HI isn=2 clock=1001 -> 9 0 0 0";
    a_refused_call_raises_it_too "HI isn=1 clock=0 -> 0 1 0 0
                                  HI user=2 file=9 isn=1 clock=901 -> 17 0 0 0
                                  ET user=1 clock=0 -> 9 0 0 0";
    r22_and_72_do_not "HI isn=1 clock=0 -> 0 1 0 0
                       HI option=H clock=901 -> 22 0 0 0
                       HI user=33 clock=901 -> 72 0 0 0
                       ET user=1 clock=0 -> 0 0 1 1";
    r22_clears_no_mark "HI isn=1 clock=0 -> 0 1 0 0
                        RE user=2 clock=901 -> 0 0 0 0
                        XX user=1 -> 22 0 0 0
                        ET -> 9 0 0 0
                        ET -> 0 0 0 1";
    the_first_hold_starts_the_time "L1 isn=1 format=AA. length=1 clock=0 -> 113 0 0 0
                        ET clock=100 -> 0 0 0 1
                        HI isn=1 clock=200 -> 0 1 0 0
                        HI isn=2 clock=1100 -> 0 2 0 0
                        HI isn=3 clock=1101 -> 9 0 0 0";
    own_time_limit "OP limit=5 -> 0 0 0 0
                    HI isn=1 clock=10 -> 0 1 0 0
                    HI isn=2 clock=15 -> 0 2 0 0
                    HI isn=3 clock=16 -> 9 0 0 0";
    all_overdue_users_are_backed_out "N1 format=AA. record=31 -> 0 1 0 0
                    N1 user=2 format=AA. record=32 -> 0 2 0 0
                    N1 user=3 format=AA. record=33 clock=1 -> 0 3 0 0
                    N1 user=4 format=AA. record=31 clock=901 -> 0 1 0 0
                    N1 user=3 format=AA. record=32 -> 0 2 0 0
                    HI user=1 isn=1 -> 9 0 0 0
                    HI user=2 isn=1 -> 9 0 0 0
                    HI isn=1 -> 145 0 0 0";
    greatest_clock "HI isn=1 clock=4294967295 -> 0 1 0 0
                    HI isn=2 clock=4294967295 -> 0 2 0 0
                    ET clock=0 -> 0 0 2 1";
}

/// An own entry is not moved by a second hold; the queue is oldest first, and removal closes the gap.
#[test]
fn queue_order() {
    let mut bench = bench();
    bench.run(
        "HI isn=1 -> 0 1 0 0
         HI user=2 isn=2 -> 0 2 0 0
         HI user=1 isn=3 -> 0 3 0 0
         HI isn=1 -> 0 1 0 0",
    );
    let isns = |bench: &Bench| -> Vec<u16> {
        let entries = &bench.machine.queue[..bench.machine.state.entries as usize];
        entries.iter().map(|entry| entry.isn).collect()
    };
    assert_eq!(isns(&bench), [1, 2, 3]);
    bench.run("RI isn=1 -> 0 1 1 0");
    assert_eq!(isns(&bench), [2, 3]);
    bench.run("HI isn=1 -> 0 1 0 0");
    assert_eq!(isns(&bench), [2, 3, 1]);
}

/// Images move with their entries, in files of different widths.
#[test]
fn images_move_with_their_entries() {
    bench().run(
        "N1 format=AA,AB. record=314142 -> 0 1 0 0
         N1 file=2 format=DA,PA,BA. record=3132123C07 -> 0 1 0 0
         N2 file=2 isn=2 format=DA. record=3939 -> 0 2 0 0
         ET -> 0 0 3 1
         HI user=3 isn=3 -> 0 3 0 0
         A1 user=1 option=H isn=1 format=AA,AB. record=325858 -> 0 1 0 0
         A1 user=2 option=H file=2 isn=1 format=DA,PA,BA. record=3030999D08 -> 0 1 0 0
         E1 user=3 option=H file=2 isn=2 -> 0 2 0 0
         BT user=1 -> 0 0 1 0
         RI user=3 -> 0 0 1 0
         BT user=2 -> 0 0 1 0
         BT user=3 -> 0 0 1 0
         L1 isn=1 format=AA,AB. length=3 -> 0 1 3 0 314142
         L1 file=2 isn=1 format=DA,PA,BA. length=5 -> 0 1 5 0 3132123F07
         L1 file=2 isn=2 format=DA,PA,BA. length=5 -> 0 2 5 0 3939000F00",
    );
}

/// "The sequence stops at 4294967295."
#[test]
fn sequence_stops() {
    let mut bench = bench();
    bench.run("ET -> 0 0 0 1");
    bench.machine.state.users[0].sequence = u32::MAX - 1;
    bench.run(
        "ET -> 0 0 0 4294967295
         ET -> 0 0 0 4294967295
         CL -> 0 0 0 4294967295",
    );
}

/// The session opens after the row of 9 and stays where the call is refused; a closed one keeps its values.
#[test]
fn sessions() {
    let mut bench = bench();
    bench.run("HI file=9 isn=1 -> 17 0 0 0");
    let user = bench.machine.state.users[0];
    assert!(user.session);
    assert_eq!(
        (user.hold_limit, user.time_limit, user.sequence),
        (64, 900, 0)
    );
    bench.run(
        "OP option=A isn=3 limit=4 -> 0 0 0 0
         CL -> 0 0 0 0",
    );
    let user = bench.machine.state.users[0];
    assert!(!user.session && user.access_only);
    assert_eq!((user.hold_limit, user.time_limit), (3, 4));
    bench.run("XX -> 22 0 0 0");
    assert!(!bench.machine.state.users[0].session);
    bench.run("CL -> 0 0 0 0");
    assert!(!bench.machine.state.users[0].session);
    assert!(!bench.machine.state.users[0].access_only);
}

/// A mark together with a transaction, and a mark without a session: the mark wins and goes, nothing else.
#[test]
fn mark_in_states_that_no_list_makes() {
    for letters in ["OP", "CL", "ET"] {
        let mut bench = bench();
        bench.run("HI isn=1 -> 0 1 0 0");
        bench.machine.state.users[0].overdue = true;
        bench.run(&format!("{letters} -> 9 0 0 0"));
        assert!(bench.machine.state.users[0].in_transaction);
        assert_eq!(bench.machine.state.entries, 1);
        let mut bench = common::bench();
        bench.machine.state.users[0].overdue = true;
        bench.run(&format!("{letters} -> 9 0 0 0"));
        assert!(!bench.machine.state.users[0].session);
    }
}

/// A kept clock past a limit: the next call backs out, also with clock 0.
#[test]
fn late_in_a_lent_state() {
    let mut bench = bench();
    bench.run("N1 format=AA. record=31 -> 0 1 0 0");
    bench.machine.state.clock = 901;
    bench.run(
        "L1 user=2 isn=1 format=AA. length=1 clock=0 -> 113 0 0 0
         ET user=1 -> 9 0 0 0",
    );
}

/// "A stored byte that no call writes is returned as it is", and unique values are compared as they are stored.
#[test]
fn lent_store_bytes_are_returned_as_they_are() {
    let table = table(&[
        file(1, 3),
        field(b"PA", 2, b'P', b'U'),
        field(b"DA", 2, b'U', b' '),
    ]);
    let mut bench = Bench::new(&table, 2);
    bench.machine.store[..5].copy_from_slice(&[1, 0x00, 0x0C, 0xFF, 0x41]);
    bench.run(
        "L1 isn=1 format=DA,PA. length=4 -> 0 1 4 0 FF41000C
         N1 format=PA. record=000C -> 0 2 0 0
         L1 isn=2 format=PA. length=2 -> 0 2 2 0 000F
         A1 isn=1 option=H format=PA. record=001C -> 0 1 0 0
         L1 isn=1 format=PA,DA. length=4 -> 0 1 4 0 001FFF41
         BT -> 0 0 2 0
         L1 isn=1 format=PA,DA. length=4 -> 0 1 4 0 000CFF41",
    );
}

/// "55 is then given only for the half bytes 0 to 9 in the sign's place or a bad digit."
#[test]
fn no_digit_is_a_sign() {
    let table = table(&[file(1, 2), field(b"PA", 1, b'P', b' ')]);
    for digit in 0..=9 {
        Bench::new(&table, 4).run(&format!("N1 format=PA. record=5{digit} -> 55 0 0 0"));
    }
}

/// "Uniqueness still compares with the stored bytes as they are": a lent X'5B' is not the stored X'5D'.
#[test]
fn a_lent_sign_is_compared_as_it_is() {
    let table = table(&[file(1, 3), field(b"PA", 1, b'P', b'U')]);
    let mut bench = Bench::new(&table, 4);
    bench.machine.store[..2].copy_from_slice(&[1, 0x5B]);
    bench.run(
        "N2 isn=2 format=PA. record=5B -> 0 2 0 0
         N2 isn=3 format=PA. record=5B -> 198 0 0 0
         L1 isn=1 format=PA. length=1 -> 0 1 1 0 5B
         L1 isn=2 format=PA. length=1 -> 0 2 1 0 5D",
    );
}

/// Any first byte but 1 is no record; a back-out sets 0 there, or 1 with the image.
#[test]
fn first_bytes() {
    let mut bench = bench();
    bench.machine.store[0] = 0xFF;
    bench.run(
        "L1 isn=1 format=AA. length=1 -> 113 0 0 0
         N2 isn=1 format=AA. record=31 -> 0 1 0 0
         BT -> 0 0 1 0",
    );
    assert_eq!(bench.machine.store[0], 0);
    assert_eq!(
        bench.machine.store[1..4],
        *b"1  ",
        "emptying keeps the rest"
    );
    bench.run(
        "N2 isn=1 format=AA. record=31 -> 0 1 0 0
         ET -> 0 0 1 1
         E1 isn=1 option=H -> 0 1 0 0",
    );
    assert_eq!(bench.machine.store[..4], *b"\x001  ");
    bench.run("BT -> 0 0 1 0");
    assert_eq!(bench.machine.store[..4], *b"\x011  ");
}

/// The flag of an unchanged entry is as the ISN was at the hold, and judged again at the first change.
#[test]
fn existed_flag() {
    let mut bench = bench();
    bench.run(
        "N1 format=AA. record=31 -> 0 1 0 0
         ET -> 0 0 1 1
         HI isn=1 -> 0 1 0 0
         HI isn=2 -> 0 2 0 0",
    );
    assert!(bench.machine.queue[0].existed && !bench.machine.queue[1].existed);
    bench.machine.queue[0].existed = false;
    bench.machine.queue[1].existed = true;
    bench.run(
        "E1 isn=1 -> 0 1 0 0
         N2 isn=2 format=AA. record=32 -> 0 2 0 0
         BT -> 0 0 2 0
         L1 isn=1 format=AA. length=1 -> 0 1 1 0 31
         L1 isn=2 format=AA. length=1 -> 113 0 0 0",
    );
}

/// Each call brings its own capacity: fewer than at set-up is good while the entries are no more.
#[test]
fn capacity_of_each_call() {
    let mut bench = Bench::new(&two_files(), 4);
    bench.run(
        "HI isn=1 -> 0 1 0 0
         HI isn=2 -> 0 2 0 0",
    );
    bench.machine.capacity = 2;
    bench.run("HI isn=3 -> 70 0 0 0");
    bench.machine.capacity = 3;
    bench.run(
        "HI isn=3 -> 0 3 0 0
         ET -> 0 0 3 1",
    );
}

/// "Record buffer bytes past the quantity keep their values."
#[test]
fn record_buffer_past_the_quantity() {
    let mut bench = bench();
    bench.run("N1 format=AA. record=31 -> 0 1 0 0");
    let l1 = call_lists::read_call(1, 1, "L1 isn=1 format=AA. record=EEDDCC").expect("call");
    let (answer, record, _) = second::vectors::run_call(&mut bench.machine, &l1);
    assert_eq!((answer.quantity, record), (1, vec![0x31, 0xDD, 0xCC]));
}
