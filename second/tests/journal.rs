//! Requirement 3 and the line by random lists, and the journal itself by hand.

use second::compare::{self, Counts, REACHED};
use second::definition;
use second::random;

const LISTS: u64 = 40_000;

/// Runs the lists of many seeds beside the journal: after each call and, at the end, for every choice of the users in
/// a transaction. Prints how often each response came; each that lists can reach must have come.
#[test]
fn journal_and_nucleus_have_the_same_records() {
    let halves = [1..=LISTS / 2, LISTS / 2 + 1..=LISTS];
    let threads = halves.map(|seeds| {
        std::thread::spawn(move || {
            let mut counts = Counts::new();
            for seed in seeds {
                if let Err(error) = compare::check_list(&random::list(seed), &mut counts) {
                    panic!("{error}");
                }
            }
            counts
        })
    });
    let mut counts = Counts::new();
    for thread in threads {
        for (label, count) in thread.join().expect("the lists agree") {
            *counts.entry(label).or_default() += count;
        }
    }
    println!("{LISTS} lists:\n{}", compare::counts_text(&counts));
    for label in REACHED {
        assert!(counts.contains_key(label), "{label} never came");
    }
    assert_eq!(counts.len(), REACHED.len(), "{counts:?}");
}

/// The same on large tables: some are at the limits of files, fields, width and ISNs, and records are changed in them.
#[test]
fn journal_and_nucleus_on_large_tables() {
    let mut counts = Counts::new();
    let mut greatest = [0; 4];
    for seed in 1..=150 {
        let list = random::large_list(seed);
        compare::check_list(&list, &mut counts).expect("equal");
        let definition = definition::read_table(&list.table).expect("valid");
        for file in definition.used_files() {
            let sizes = [
                usize::from(definition.count),
                usize::from(file.count),
                file.record_length(),
                usize::from(file.max_isn),
            ];
            greatest = std::array::from_fn(|place| greatest[place].max(sizes[place]));
        }
    }
    println!("{}", compare::counts_text(&counts));
    assert_eq!(greatest, [16, 16, 512, 4095]);
    assert!(counts["0"] > 1000 && counts["198"] > 20, "{counts:?}");
}

mod by_hand {
    use call_lists::{bytes, read_call};
    use second::journal::Journal;
    use second::state::Call;

    /// A file with highest ISN 3: AA, 1 byte `A`; PA, 1 byte `P`.
    const TABLE: &str = "01010003 024141014120 025041015020 00";

    /// A journal fed with calls and their answers.
    fn fed(script: &str) -> Journal {
        let mut journal = Journal::new(&bytes(TABLE).expect("hex")).expect("table");
        let mut user = 1;
        for line in script.lines() {
            // The journal is fed the response and the ISN only.
            let listed = read_call(1, user, &format!("{line} 0 0")).expect(line);
            let answer = listed.expected.expect(line).answer;
            let brought = &listed.call;
            user = brought.user;
            let call = Call::from(brought);
            journal.feed(
                &call,
                &brought.format,
                &brought.record,
                answer.response,
                answer.isn,
            );
        }
        journal
    }

    fn records(journal: &Journal) -> Vec<(u16, Vec<u8>)> {
        journal
            .records()
            .into_iter()
            .map(|((_, isn), content)| (isn, content))
            .collect()
    }

    #[test]
    fn journal_applies_changes_in_stored_form() {
        let journal = fed("N1 format=AA. record=41 -> 0 1
                           N2 isn=3 format=PA,AA. record=1C42 -> 0 3
                           N1 format=AA. record=43 -> 0 2
                           A1 isn=1 format=PA. record=0D -> 0 1
                           E1 isn=2 -> 0 2
                           A1 isn=3 format=PA. record=2D -> 144 0");
        assert_eq!(
            records(&journal),
            [(1, vec![0x41, 0x0F]), (3, vec![0x42, 0x1F])]
        );
    }

    #[test]
    fn journal_strikes_open_changes_only() {
        let script = "N1 format=AA. record=41 -> 0 1
                      ET -> 0 0
                      N1 format=AA. record=42 -> 0 2
                      N1 user=2 format=AA. record=43 -> 0 3";
        let end = |line: &str| records(&fed(&format!("{script}\n{line}"))).len();
        assert_eq!(fed(script).in_transaction(), [1, 2]);
        assert_eq!(end("BT user=1 -> 0 0"), 2);
        assert_eq!(end("OP user=1 -> 9 0"), 2);
        assert_eq!(end("CL user=1 -> 9 0"), 2);
        assert_eq!(end("HI user=1 isn=1 -> 9 0"), 3);
        assert_eq!(end("BT user=1 -> 29 0"), 3);
        assert_eq!(end("ET user=1 -> 53 0"), 3);
        let mut journal = fed(script);
        journal.back_out(2);
        journal.back_out(1);
        assert_eq!(records(&journal).len(), 1);
        assert!(journal.in_transaction().is_empty());
    }

    #[test]
    fn journal_goes_by_clock_and_time_limit() {
        let start = "N1 format=AA. record=41 clock=10 -> 0 1";
        let after = |line: &str| fed(&format!("{start}\n{line}")).records().len();
        assert_eq!(after("L1 user=2 isn=1 clock=910 -> 113 0"), 1);
        assert_eq!(after("L1 user=2 isn=1 clock=911 -> 113 0"), 0);
        assert_eq!(after("XX clock=911 -> 22 0"), 1);
        assert_eq!(after("HI user=33 clock=911 -> 72 0"), 1);
        assert_eq!(after("HI clock=911 -> 11 0"), 1);
        assert_eq!(after("HI clock=911 -> 12 0"), 1);
        assert_eq!(after("HI user=2 clock=911 -> 9 0"), 0);
        let limited = |op: &str| {
            fed(&format!("{op}\n{start}\nRE clock=16 -> 0 0"))
                .records()
                .len()
        };
        assert_eq!(limited("OP limit=5 -> 0 0"), 0);
        assert_eq!(limited("OP limit=6 -> 0 0"), 1);
        assert_eq!(limited("OP limit=5 -> 9 0"), 1);
        assert_eq!(limited("OP limit=5 -> 0 0\nOP limit=0 -> 0 0"), 1);
        assert_eq!(limited("OP limit=5 -> 0 0\nCL -> 0 0"), 1);
        assert_eq!(limited("OP limit=5 -> 0 0\nCL -> 9 0"), 0);
    }

    /// Time does not back out whom a PE answered 0 has set ready, until his transaction ends.
    #[test]
    fn journal_waits_for_who_is_ready() {
        let after = |lines: &str| {
            let start = "HI isn=2 -> 0 2\nN1 format=AA. record=41 -> 0 1";
            let journal = fed(&format!("{start}\n{lines}"));
            (records(&journal).len(), journal.in_transaction())
        };
        let late = "L1 user=2 isn=1 clock=901 -> 0 1";
        assert_eq!(after(late), (0, vec![]));
        assert_eq!(after(&format!("PE -> 0 0\n{late}")), (1, vec![1]));
        assert_eq!(
            after(&format!("PE -> 0 0\n{late}\nET user=1 -> 0 0")),
            (1, vec![])
        );
        for refused in ["211", "212", "29", "9"] {
            let lines = format!("PE -> {refused} 0\n{late}");
            assert_eq!(after(&lines), (0, vec![]), "{refused}");
        }
        for ends in ["ET -> 0 0", "BT -> 0 0", "OP -> 9 0", "CL -> 9 0"] {
            let lines = format!("PE -> 0 0\n{ends}\nHI isn=3 -> 0 3\n{late}");
            assert_eq!(after(&lines).1, [], "{ends}");
        }
    }

    /// The holds, by user, ISN and whether changed, and the line, by user and ISN.
    type Kept = (Vec<(u8, u16, bool)>, Vec<(u8, u16)>);

    fn kept(script: &str) -> Kept {
        let journal = fed(script);
        let holds = journal.holds().iter();
        let line = journal.line().iter();
        (
            holds
                .map(|hold| (hold.user, hold.isn, hold.changed))
                .collect(),
            line.map(|place| (place.user, place.isn)).collect(),
        )
    }

    #[test]
    fn journal_keeps_holds() {
        let script = "HI isn=1 -> 0 1
                      N1 format=AA. record=41 -> 0 2
                      L4 user=2 isn=3 -> 0 3
                      HI user=1 isn=1 -> 0 1
                      HI isn=3 -> 145 0";
        let (holds, line) = kept(script);
        assert_eq!(holds, [(1, 1, false), (1, 2, true), (2, 3, false)]);
        assert_eq!(line, []);
        let after = |line: &str| kept(&format!("{script}\n{line}")).0;
        assert_eq!(after("RI isn=1 -> 0 1"), [(1, 2, true), (2, 3, false)]);
        assert_eq!(after("RI isn=0 -> 0 0"), [(1, 2, true), (2, 3, false)]);
        assert_eq!(after("RI isn=2 -> 146 0").len(), 3);
        for ends in ["ET -> 0 0", "BT -> 0 0", "OP -> 9 0", "CL -> 9 0"] {
            assert_eq!(after(ends), [(2, 3, false)], "{ends}");
        }
        assert_eq!(after("A1 user=2 isn=3 -> 0 3")[2], (2, 3, true));
        assert_eq!(after("RE user=3 clock=901 -> 0 0"), []);
    }

    #[test]
    fn journal_keeps_the_line() {
        let script = "HI isn=1 -> 0 1
                      HI user=2 option=W isn=1 -> 20 0
                      L4 user=3 option=W isn=1 -> 20 0
                      HI user=2 option=W isn=1 -> 20 0";
        let after = |line: &str| kept(&format!("{script}\n{line}")).1;
        assert_eq!(after("XX user=2 -> 22 0"), [(2, 1), (3, 1)]);
        assert_eq!(after("L4 option=W user=3 isn=1 -> 41 0"), [(2, 1), (3, 1)]);
        assert_eq!(after("L4 option=W user=2 isn=1 -> 20 0"), [(3, 1), (2, 1)]);
        assert_eq!(after("L4 option=W user=2 isn=1 -> 41 0"), [(3, 1)]);
        assert_eq!(after("HI option=W user=2 isn=2 -> 0 2"), [(3, 1)]);
        assert_eq!(after("HI user=2 isn=1 -> 145 0"), [(3, 1)]);
        assert_eq!(after("L1 user=3 isn=1 -> 17 0"), [(2, 1)]);
        assert_eq!(after("PE user=1 -> 0 0"), [(2, 1), (3, 1)]);
    }

    /// Who gets a hold is in a transaction from then on, unless he was in one.
    #[test]
    fn journal_hands_over() {
        let script = "HI user=3 isn=3 clock=5 -> 0 3
                      HI user=1 isn=1 -> 0 1
                      HI isn=2 -> 0 2
                      HI user=3 option=W isn=2 -> 20 0
                      HI user=2 option=W isn=1 -> 20 0
                      HI user=4 option=W isn=1 -> 20 0";
        let ends = [
            "ET user=1 clock=9 -> 0 0",
            "BT user=1 clock=9 -> 0 0",
            "OP user=1 clock=9 -> 9 0",
            "CL user=1 clock=9 -> 9 0",
            "RI user=1 isn=0 clock=9 -> 0 0",
        ];
        for lets_go in ends {
            let script = format!("{script}\n{lets_go}");
            let (holds, line) = kept(&script);
            assert_eq!(holds, [(3, 3, false), (2, 1, false), (3, 2, false)]);
            assert_eq!(line, [(4, 1)]);
            let journal = fed(&script);
            let begun = [2, 3, 4].map(|user| journal.begun(user));
            assert_eq!(begun, [Some(9), Some(5), None]);
            assert_eq!((journal.let_gos(1, 1), journal.let_gos(1, 3)), (1, 0));
        }
        // The clock: user 1 is late, and then user 3, who has got ISN 2 by then. Nobody is left who waits for ISN 2 or 3.
        let (holds, line) = kept(&format!("{script}\nRE user=9 clock=906 -> 0 0"));
        assert_eq!((holds, line), (vec![(2, 1, false)], vec![(4, 1)]));
    }

    /// "A back-out takes its user from the line."
    #[test]
    fn journal_takes_whom_it_backs_out_from_the_line() {
        let script = "HI user=2 isn=2 -> 0 2
                      HI user=1 isn=1 clock=10 -> 0 1
                      HI user=2 option=W isn=1 -> 20 0
                      RE user=3 clock=901 -> 0 0";
        assert_eq!(kept(script), (vec![(1, 1, false)], vec![]));
    }

    /// A hold starts the transaction, and it keeps that start though RI drops every entry.
    #[test]
    fn journal_keeps_the_start_of_a_transaction() {
        let journal = fed("HI isn=1 clock=0 -> 0 1
                           RI -> 0 0
                           N1 format=AA. record=41 clock=900 -> 0 1
                           ET clock=901 -> 9 0");
        assert!(records(&journal).is_empty());
        assert!(journal.in_transaction().is_empty());
        assert_eq!(fed("L4 isn=1 -> 0 1").in_transaction(), [1]);
        assert!(fed("L1 isn=1 -> 0 1").in_transaction().is_empty());
    }
}
