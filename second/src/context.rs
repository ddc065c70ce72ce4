//! One call at work: the state, everything lent, and the call itself, with the lookups that rows and commands share.

use crate::committed;
use crate::definition::File;
use crate::fields;
use crate::hold::{self, Entry};
use crate::state::{Call, Command, State, User};
use crate::store;

pub struct Context<'a> {
    pub state: &'a mut State,
    pub capacity: u32,
    pub store: &'a mut [u8],
    pub queue: &'a mut [Entry],
    pub images: &'a mut [u8],
    pub command: Command,
    pub call: &'a Call,
    pub format: &'a [u8],
    pub record: &'a mut [u8],
}

impl Context<'_> {
    pub fn user(&self) -> &User {
        &self.state.users[usize::from(self.call.user) - 1]
    }

    pub fn user_mut(&mut self) -> &mut User {
        &mut self.state.users[usize::from(self.call.user) - 1]
    }

    /// The entries of the hold queue that count.
    pub fn entries(&self) -> &[Entry] {
        &self.queue[..self.state.entries as usize]
    }

    /// The call's file by index, if it is defined.
    pub fn file_index(&self) -> Option<usize> {
        self.state.definition.file_index(self.call.file)
    }

    pub fn file(&self) -> Option<&File> {
        self.file_index()
            .map(|index| &self.state.definition.files[index])
    }

    /// The fields that the format buffer names; none where it breaks its form.
    pub fn elements(&self) -> Option<Vec<usize>> {
        fields::elements(self.file()?, self.format)
    }

    /// Whether the call's file has a record at an ISN.
    pub fn has_record(&self, isn: u16) -> bool {
        self.has_record_in(self.call.file, isn)
    }

    /// Whether the file with this number has one.
    pub fn has_record_in(&self, file: u8, isn: u16) -> bool {
        match self.state.definition.file_index(file) {
            Some(index) => store::has_record(&self.state.definition, self.store, index, isn),
            None => false,
        }
    }

    /// The record that L1 or L4 shows: with option `C` as ended transactions left it, otherwise as it is in the store.
    pub fn shown(&self, isn: u16) -> Option<&[u8]> {
        let definition = &self.state.definition;
        let file = self.file_index()?;
        if self.call.option == b'C' {
            let entries = self.entries();
            return committed::record(definition, entries, self.store, self.images, file, isn);
        }
        self.has_record(isn)
            .then(|| store::record(definition, self.store, file, isn))
    }

    pub fn holder(&self, isn: u16) -> Option<u8> {
        hold::holder(self.entries(), self.call.file, isn)
    }

    pub fn held_by_caller(&self, isn: u16) -> bool {
        self.holder(isn) == Some(self.call.user)
    }

    /// The ISN that the command is about: the one found for option `I` and N1, otherwise the given one.
    pub fn target_isn(&self) -> Option<u16> {
        if self.command == Command::N1 {
            return self.free_isn();
        }
        if self.call.option == b'I' {
            let definition = &self.state.definition;
            let file = self.file_index()?;
            return store::lowest_with_record(definition, self.store, file, self.call.isn);
        }
        Some(self.call.isn)
    }

    /// N1: "the first ISN after the one that N1 last gave in that file (0 when fresh), going round once, that has no
    /// record and no holder". The caller's own hold is a holder too.
    fn free_isn(&self) -> Option<u16> {
        let file = self.file()?;
        let last = self.state.last_assigned[usize::from(file.number) - 1];
        (last + 1..=file.max_isn)
            .chain(1..=last)
            .find(|isn| !self.has_record(*isn) && self.holder(*isn).is_none())
    }

    /// The record that A1, N1 or N2 makes at an ISN, in stored form. A1 "replaces the named fields"; for N1 and N2
    /// "unnamed fields are null".
    pub fn new_record(&self, isn: u16) -> Option<Vec<u8>> {
        let index = self.file_index()?;
        let file = &self.state.definition.files[index];
        let mut content = match self.command {
            Command::A1 => store::record(&self.state.definition, self.store, index, isn).to_vec(),
            _ => fields::null_record(file),
        };
        fields::replace_named(file, &self.elements()?, self.record, &mut content);
        Some(content)
    }

    /// The before-image of the entry at a place.
    pub fn image(&self, place: usize) -> &[u8] {
        let length = self.state.definition.greatest_record_length();
        &self.images[hold::image_range(place, length)]
    }
}
