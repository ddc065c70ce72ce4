//! The line of those who wait for a record that another holds: a place for each user, the oldest first. A record's own line
//! is those who wait for it.

use crate::state::{Call, Command, MAX_USERS};

/// Who waits, for which record, and by which command.
#[derive(Clone, Copy, Debug, PartialEq, Eq)]
pub struct Waiter {
    pub user: u8,
    /// The file's number.
    pub file: u8,
    pub isn: u16,
    /// By L4; otherwise by HI.
    pub reads: bool,
}

impl Waiter {
    /// "HI and L4 get option `W`": who waits by this call, if it is one that may wait. Two calls of a user give the same
    /// waiter where they have "the same command, option, file and ISN".
    pub fn by(command: Command, call: &Call) -> Option<Waiter> {
        let may_wait = matches!(command, Command::Hi | Command::L4) && call.option == b'W';
        may_wait.then_some(Waiter {
            user: call.user,
            file: call.file,
            isn: call.isn,
            reads: command == Command::L4,
        })
    }

    pub fn is_for(&self, file: u8, isn: u16) -> bool {
        (self.file, self.isn) == (file, isn)
    }

    /// A place is kept as a word of 64 bits, and the highest 31 are not looked at.
    pub fn from_word(word: u64) -> Waiter {
        Waiter {
            user: word as u8,
            file: (word >> 8) as u8,
            isn: (word >> 16) as u16,
            reads: word >> 32 & 1 == 1,
        }
    }

    pub fn word(&self) -> u64 {
        u64::from(self.user)
            | u64::from(self.file) << 8
            | u64::from(self.isn) << 16
            | u64::from(self.reads) << 32
    }
}

/// The words of those who wait; what stands past their number means nothing.
#[derive(Clone, Copy, Debug, PartialEq, Eq)]
pub struct Line {
    pub places: [u64; MAX_USERS],
    pub waiting: usize,
}

impl Line {
    /// Nobody waits.
    pub const EMPTY: Line = Line {
        places: [0; MAX_USERS],
        waiting: 0,
    };

    /// Who waits, oldest first.
    pub fn waiters(&self) -> impl Iterator<Item = Waiter> + '_ {
        let words = self.places.iter().take(self.waiting);
        words.map(|word| Waiter::from_word(*word))
    }

    pub fn has(&self, user: u8) -> bool {
        self.waiters().any(|waiter| waiter.user == user)
    }

    /// "The same command, option, file and ISN again while he waits keeps his place."
    pub fn keeps_place(&self, command: Command, call: &Call) -> bool {
        let waiter = Waiter::by(command, call);
        self.waiters().any(|placed| Some(placed) == waiter)
    }

    /// "The first in line."
    pub fn first_for(&self, file: u8, isn: u16) -> Option<Waiter> {
        self.waiters().find(|waiter| waiter.is_for(file, isn))
    }

    /// Puts a waiter at the end; whoever is in the line keeps his place.
    pub fn join(&mut self, waiter: Waiter) {
        if !self.has(waiter.user) {
            self.places[self.waiting] = waiter.word();
            self.waiting += 1;
        }
    }

    /// Removes a user. The words behind his move up, and the places past them stay as they are.
    pub fn leave(&mut self, user: u8) {
        let mut kept = 0;
        for place in 0..self.waiting {
            let word = self.places[place];
            if Waiter::from_word(word).user != user {
                self.places[kept] = word;
                kept += 1;
            }
        }
        self.waiting = kept;
    }
}

#[cfg(test)]
mod tests {
    use super::*;

    fn waiter(user: u8, isn: u16) -> Waiter {
        Waiter {
            user,
            file: 3,
            isn,
            reads: user > 2,
        }
    }

    #[test]
    fn a_word_has_user_file_isn_and_command() {
        let waiter = Waiter {
            user: 0xA1,
            file: 0xB2,
            isn: 0xC3D4,
            reads: true,
        };
        assert_eq!(waiter.word(), 0x1_C3D4_B2A1);
        let by_hi = Waiter {
            reads: false,
            ..waiter
        };
        assert_eq!(by_hi.word(), 0xC3D4_B2A1);
        for (word, expected) in [(waiter.word(), waiter), (by_hi.word(), by_hi)] {
            assert_eq!(Waiter::from_word(word), expected);
            assert_eq!(Waiter::from_word(word | 0xFFFF_FFFE_0000_0000), expected);
        }
    }

    #[test]
    fn leaving_closes_the_gap_and_writes_nothing_past_it() {
        let mut line = Line::EMPTY;
        for user in 1..=4 {
            line.join(waiter(user, 5));
        }
        // Bits that are not looked at move with their word.
        line.places[2] |= 1 << 40;
        let before = line;
        line.leave(9);
        assert_eq!(line, before, "whoever is not there leaves nothing");
        line.leave(2);
        let mut expected = before;
        expected.places[1..3].copy_from_slice(&before.places[2..4]);
        expected.waiting = 3;
        assert_eq!(line, expected);
        line.leave(4);
        expected.waiting = 2;
        assert_eq!(line, expected, "the last place keeps its word");
    }

    #[test]
    fn whoever_is_in_the_line_keeps_his_place() {
        let mut line = Line::EMPTY;
        line.join(waiter(1, 5));
        line.join(waiter(2, 5));
        let before = line;
        line.join(waiter(1, 6));
        assert_eq!(line, before);
        assert_eq!(line.first_for(3, 5), Some(waiter(1, 5)));
        assert_eq!(line.first_for(3, 6), None);
        assert_eq!(line.first_for(2, 5), None);
    }

    #[test]
    fn there_is_a_place_for_each_user() {
        let mut line = Line::EMPTY;
        for user in 1..=32 {
            line.join(waiter(user, 5));
        }
        assert_eq!(line.waiting, MAX_USERS);
        assert!((1..=32).all(|user| line.has(user)));
        for user in 1..=32 {
            line.leave(user);
        }
        assert_eq!(line.waiting, 0);
    }
}
