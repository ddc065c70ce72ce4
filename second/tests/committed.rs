//! Document 02, No. 8: L1 with option `C` shows a record as ended transactions left it, and the part is that record
//! uncopied.

mod common;
use common::{bench, Bench};
use second::any_state;
use second::compare;
use second::machine::Machine;
use second::random::{self, Random};
use second::responses;

row! { shows:
    a_changed_record "N1 format=AA,AB. record=314142 -> 0 1 0 0
        ET -> 0 0 1 1
        A1 option=H isn=1 format=AA. record=32 -> 0 1 0 0
        L1 user=2 isn=1 format=AA,AB. length=3 -> 0 1 3 0 324142
        L1 option=C isn=1 format=AA,AB. length=3 -> 0 1 3 0 314142
        L1 option=C isn=1 format=AB,AA,AB. length=5 -> 0 1 5 0 4142314142
        L1 option=C isn=1 format=. -> 0 1 0 0";
    the_image_of_the_first_change "N1 format=AA. record=31 -> 0 1 0 0
        ET -> 0 0 1 1
        A1 option=H isn=1 format=AA. record=32 -> 0 1 0 0
        A1 isn=1 format=AA. record=33 -> 0 1 0 0
        E1 isn=1 -> 0 1 0 0
        N2 isn=1 format=AA. record=34 -> 0 1 0 0
        L1 user=2 option=C isn=1 format=AA. length=1 -> 0 1 1 0 31";
    an_emptied_record "N1 format=AA. record=31 -> 0 1 0 0
        ET -> 0 0 1 1
        E1 option=H isn=1 -> 0 1 0 0
        L1 user=2 isn=1 format=AA. length=1 -> 113 0 0 0
        L1 option=C isn=1 format=AA. length=1 -> 0 1 1 0 31";
    no_added_record "N1 format=AA. record=31 -> 0 1 0 0
        L1 user=2 isn=1 format=AA. length=1 -> 0 1 1 0 31
        L1 option=C isn=1 format=AA. length=1 -> 113 0 0 0
        E1 user=1 isn=1 -> 0 1 0 0
        L1 user=2 option=C isn=1 format=AA. length=1 -> 113 0 0 0";
    ones_own_change_neither "N1 format=AA. record=31 -> 0 1 0 0
        L1 option=C isn=1 format=AA. length=1 -> 113 0 0 0
        ET -> 0 0 1 1
        L1 option=C isn=1 format=AA. length=1 -> 0 1 1 0 31
        A1 option=H isn=1 format=AA. record=32 -> 0 1 0 0
        L1 isn=1 format=AA. length=1 -> 0 1 1 0 32
        L1 option=C isn=1 format=AA. length=1 -> 0 1 1 0 31";
    a_record_that_is_only_held "N1 format=AA. record=31 -> 0 1 0 0
        ET -> 0 0 1 1
        HI user=2 isn=1 -> 0 1 0 0
        HI isn=2 -> 0 2 0 0
        L1 user=3 option=C isn=1 format=AA. length=1 -> 0 1 1 0 31
        L1 option=C isn=2 format=AA. length=1 -> 113 0 0 0";
    a_change_of_no_byte "N1 format=AA. record=31 -> 0 1 0 0
        ET -> 0 0 1 1
        A1 option=H isn=1 format=. -> 0 1 0 0
        L1 option=C isn=1 format=AA. length=1 -> 0 1 1 0 31";
    after_et "N1 format=AA. record=31 -> 0 1 0 0
        ET -> 0 0 1 1
        A1 option=H isn=1 format=AA. record=32 -> 0 1 0 0
        ET -> 0 0 1 2
        L1 option=C isn=1 format=AA. length=1 -> 0 1 1 0 32
        E1 option=H isn=1 -> 0 1 0 0
        ET -> 0 0 1 3
        L1 option=C isn=1 format=AA. length=1 -> 113 0 0 0";
    after_bt "N1 format=AA. record=31 -> 0 1 0 0
        ET -> 0 0 1 1
        A1 option=H isn=1 format=AA. record=32 -> 0 1 0 0
        BT -> 0 0 1 0
        L1 option=C isn=1 format=AA. length=1 -> 0 1 1 0 31
        N1 format=AA. record=33 -> 0 2 0 0
        BT -> 0 0 1 0
        L1 option=C isn=2 format=AA. length=1 -> 113 0 0 0";
    each_file_its_own "N1 format=AA. record=31 -> 0 1 0 0
        ET -> 0 0 1 1
        N1 file=2 format=BA. record=07 -> 0 1 0 0
        ET -> 0 0 1 2
        A1 option=H isn=1 format=AA. record=32 -> 0 1 0 0
        A1 option=H file=2 isn=1 format=BA. record=08 -> 0 1 0 0
        L1 user=2 option=C isn=1 format=AA,AB. length=3 -> 0 1 3 0 312020
        L1 option=C file=2 isn=1 format=DA,PA,BA. length=5 -> 0 1 5 0 3030000F07
        L1 option=C file=2 isn=2 format=BA. length=1 -> 113 0 0 0";
    images_that_move "N1 format=AA. record=31 -> 0 1 0 0
        N1 format=AA. record=32 -> 0 2 0 0
        ET -> 0 0 2 1
        A1 option=H isn=1 format=AA. record=33 -> 0 1 0 0
        A1 user=2 option=H isn=2 format=AA. record=34 -> 0 2 0 0
        ET user=1 -> 0 0 1 2
        L1 option=C isn=1 format=AA. length=1 -> 0 1 1 0 33
        L1 option=C isn=2 format=AA. length=1 -> 0 2 1 0 32";
    what_a_ready_user_changed "N1 format=AA. record=31 -> 0 1 0 0
        PE -> 0 0 0 0
        L1 user=2 option=C isn=1 format=AA. length=1 clock=901 -> 113 0 0 0
        ET user=1 -> 0 0 1 1
        L1 user=2 option=C isn=1 format=AA. length=1 -> 0 1 1 0 31";
}

row! { rows:
    r22 "L4 option=C isn=1 format=AA. length=1 -> 22 0 0 0
        HI option=C isn=1 -> 22 0 0 0
        RI option=C -> 22 0 0 0
        A1 option=C isn=1 format=AA. record=31 -> 22 0 0 0
        E1 option=C isn=1 -> 22 0 0 0
        N1 option=C format=AA. record=31 -> 22 0 0 0
        N2 option=C isn=1 format=AA. record=31 -> 22 0 0 0
        ET option=C -> 22 0 0 0
        BT option=C -> 22 0 0 0
        RE option=C length=64 -> 22 0 0 0
        OP option=C -> 22 0 0 0
        CL option=C -> 22 0 0 0
        PE option=C -> 22 0 0 0
        L1 option=c isn=1 format=AA. length=1 -> 22 0 0 0";
    r72 "L1 user=33 option=C isn=1 format=AA. length=1 -> 72 0 0 0";
    r9 "HI isn=1 -> 0 1 0 0
        L1 option=C isn=1 format=AA. length=1 clock=901 -> 9 0 0 0";
    r211 "N1 format=AA. record=31 -> 0 1 0 0
        PE -> 0 0 0 0
        L1 option=C isn=1 format=AA. length=1 -> 211 0 0 0";
    r29_not "N1 user=2 format=AA. record=31 -> 0 1 0 0
        ET -> 0 0 1 1
        OP user=1 option=A -> 0 0 0 0
        L1 option=C isn=1 format=AA. length=1 -> 0 1 1 0 31";
    r17_before_113 "L1 option=C file=3 isn=0 length=1 -> 17 0 0 0";
    r113_range_before_41 "L1 option=C isn=0 -> 113 0 0 0
        L1 option=C isn=4 -> 113 0 0 0
        L1 option=C isn=65535 -> 113 0 0 0";
    r41_before_53 "L1 option=C isn=1 format=AC. -> 41 0 0 0
        L1 option=C isn=1 -> 41 0 0 0";
    r53_before_113 "L1 option=C isn=1 format=AA. -> 53 0 0 0
        L1 option=C isn=1 format=AA. length=1 -> 113 0 0 0";
    r44_145_not "N1 format=AA. record=31 -> 0 1 0 0
        ET -> 0 0 1 1
        L4 isn=1 format=AA. length=1 -> 0 1 1 0 31
        L1 user=2 option=C isn=1 format=AA,AA. length=2 -> 0 1 2 0 3131";
    behind_a_back_out "N1 format=AA. record=31 -> 0 1 0 0
        ET -> 0 0 1 1
        A1 option=H isn=1 format=AA. record=32 -> 0 1 0 0
        N1 format=AA. record=33 -> 0 2 0 0
        L1 user=2 option=C isn=1 format=AA. length=1 clock=900 -> 0 1 1 0 31
        L1 option=C isn=1 format=AA. length=1 clock=901 -> 0 1 1 0 31
        L1 isn=1 format=AA. length=1 -> 0 1 1 0 31
        L1 option=C isn=2 format=AA. length=1 -> 113 0 0 0
        ET user=1 -> 9 0 0 0";
    no_transaction "N1 format=AA. record=31 -> 0 1 0 0
        ET -> 0 0 1 1
        L1 user=2 option=C isn=1 format=AA. length=1 -> 0 1 1 0 31
        PE -> 212 0 0 0";
}

/// A changed record, an emptied one, an added one and a held one; file 2's records are longer.
fn four() -> Bench {
    let mut bench = Bench::new(&common::two_files(), 4);
    bench.run(
        "N2 isn=1 format=AA,AB. record=314142 -> 0 1 0 0
         N2 isn=2 format=AA. record=32 -> 0 2 0 0
         N2 file=2 isn=1 format=BA. record=07 -> 0 1 0 0
         ET -> 0 0 3 1
         A1 option=H isn=1 format=AA. record=33 -> 0 1 0 0
         E1 user=2 option=H isn=2 -> 0 2 0 0
         N2 user=3 isn=3 format=AA. record=34 -> 0 3 0 0
         HI user=4 file=2 isn=1 -> 0 1 0 0",
    );
    bench
}

/// Whether the bytes lie in the buffer, and where.
fn place_in(part: &[u8], buffer: &[u8]) -> Option<usize> {
    let start = (part.as_ptr() as usize).checked_sub(buffer.as_ptr() as usize)?;
    (start + part.len() <= buffer.len()).then_some(start)
}

#[test]
fn the_part_is_a_piece_of_the_images_or_of_the_store() {
    let machine = four().machine;
    let changed = machine.committed(1, 1);
    assert_eq!(changed, b"1AB");
    assert_eq!(place_in(changed, &machine.images), Some(0));
    let emptied = machine.committed(1, 2);
    assert_eq!(emptied, b"2  ");
    assert_eq!(place_in(emptied, &machine.images), Some(5));
    let held = machine.committed(2, 1);
    assert_eq!(held, b"00\x00\x0F\x07");
    assert_eq!(place_in(held, &machine.store), Some(3 * 4 + 1));
    for (file, isn) in [
        (1, 3),
        (2, 2),
        (1, 0),
        (1, 4),
        (1, u16::MAX),
        (0, 1),
        (3, 1),
        (255, 1),
    ] {
        assert_eq!(machine.committed(file, isn), b"", "{file} {isn}");
    }
}

/// Nobody is backed out, whatever time it is, and nobody's mark or access matters.
#[test]
fn the_part_is_no_call() {
    let mut bench = four();
    let before = bench.machine.clone();
    assert_eq!(bench.machine.committed(1, 1), b"1AB");
    assert_eq!(bench.machine, before);
    bench.run("PE user=1 -> 0 0 0 0\nL1 option=C isn=1 format=AA. length=1 -> 211 0 0 0");
    assert_eq!(bench.machine.committed(1, 1), b"1AB");
}

#[test]
fn no_bytes_where_c_gets_11_or_12() {
    type Break = fn(&mut Machine);
    let breaks: [Break; 9] = [
        |machine| machine.capacity = 0,
        |machine| machine.capacity = 257,
        |machine| machine.store.truncate(machine.store.len() - 1),
        |machine| machine.queue.truncate(machine.queue.len() - 1),
        |machine| machine.images.truncate(machine.images.len() - 1),
        |machine| machine.state.entries = 5,
        |machine| machine.queue[3] = machine.queue[0],
        |machine| machine.state.users[9].ready = true,
        |machine| machine.state.definition.files[1].count = 0,
    ];
    for break_rule in breaks {
        let mut machine = four().machine;
        assert_ne!(machine.committed(2, 1), b"");
        break_rule(&mut machine);
        for (file, isn) in [(1, 1), (1, 2), (2, 1)] {
            assert_eq!(machine.committed(file, isn), b"");
        }
    }
}

/// On random states: no bytes with 11 or 12; otherwise the store with each changed entry's image in its place.
#[test]
fn parts_of_random_states() {
    let mut random = Random::new(8);
    let mut parts = [0; 3];
    for place in 0..20_000 {
        let machine = match place % 3 {
            0 => any_state::aimed(&mut random).0,
            _ => any_state::machine(&mut random).0,
        };
        let (state, capacity) = (&machine.state, machine.capacity);
        let (store, queue, images) = (&machine.store, &machine.queue, &machine.images);
        let usable = responses::usable_rows(state, capacity, store, queue, images).is_ok();
        let expected = match usable {
            true => undone(&machine),
            false => Default::default(),
        };
        for file in 0..=18 {
            for isn in 0..=7 {
                let part = machine.committed(file, isn);
                let record = expected.get(&(file, isn));
                assert_eq!(part, record.map_or(&[][..], |record| record));
                let kind = match (part.is_empty(), place_in(part, images)) {
                    (true, _) => 0,
                    (false, None) => 1,
                    (false, Some(_)) => 2,
                };
                parts[kind] += 1;
            }
        }
    }
    println!("no bytes, store, images: {parts:?}");
    assert!(parts.iter().all(|count| *count > 1000), "{parts:?}");
}

/// The records, each changed entry undone.
fn undone(machine: &Machine) -> second::journal::Records {
    let definition = &machine.state.definition;
    let width = definition.greatest_record_length();
    let mut records = machine.records();
    for (place, entry) in machine.entries().iter().enumerate() {
        let index = definition.file_index(entry.file).expect("defined");
        let length = definition.files[index].record_length();
        let image = &machine.images[place * width..place * width + length];
        match (entry.changed, entry.existed) {
            (false, _) => {}
            (true, true) => drop(records.insert((entry.file, entry.isn), image.to_vec())),
            (true, false) => drop(records.remove(&(entry.file, entry.isn))),
        }
    }
    records
}

/// The law after every call of random lists; `compare::check_list` has it at the end of each.
#[test]
fn a_reading_is_what_backing_all_out_leaves() {
    let mut open = 0;
    for seed in 1..=2_000 {
        let list = random::list(seed);
        let mut machine = compare::machine(&list).expect("set-up");
        for (place, list_call) in list.calls.iter().enumerate() {
            let mut record = list_call.record.clone();
            machine.call(&list_call.call, &list_call.format, &mut record);
            open += usize::from(machine.entries().iter().any(|entry| entry.changed));
            if let Err(error) = compare::check_committed(&machine) {
                panic!("seed {seed}, call {}: {error}", place + 1);
            }
        }
    }
    assert!(open > 10_000, "changes were open after {open} calls only");
}
