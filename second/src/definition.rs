//! The definition table: read from bytes, judged as a kept value, and the lengths that follow from it.

pub const MAX_FILES: usize = 16;
pub const MAX_FIELDS: usize = 16;
pub const MAX_RECORD_LENGTH: usize = 512;
pub const GREATEST_MAX_ISN: u16 = 4095;

pub const END_ITEM: u8 = 0;
pub const FILE_ITEM: u8 = 1;
pub const FIELD_ITEM: u8 = 2;

/// A field: its bytes in the table, as they are.
#[derive(Clone, Copy, Debug, Default, PartialEq, Eq)]
pub struct Field {
    pub name: [u8; 2],
    pub length: u8,
    pub format: u8,
    pub option: u8,
}

/// A file with `count` fields; the other places may have anything.
#[derive(Clone, Copy, Debug, Default, PartialEq, Eq)]
pub struct File {
    pub number: u8,
    pub max_isn: u16,
    pub count: u8,
    pub fields: [Field; MAX_FIELDS],
}

/// A definition with `count` files; the other places may have anything.
#[derive(Clone, Copy, Debug, Default, PartialEq, Eq)]
pub struct Definition {
    pub count: u8,
    pub files: [File; MAX_FILES],
}

impl Field {
    pub fn is_unique(&self) -> bool {
        self.option == b'U'
    }
}

impl File {
    /// The fields in use; at most all places, also where the count is out of range.
    pub fn used_fields(&self) -> &[Field] {
        &self.fields[..usize::from(self.count).min(MAX_FIELDS)]
    }

    /// The file's width.
    pub fn record_length(&self) -> usize {
        self.used_fields()
            .iter()
            .map(|field| usize::from(field.length))
            .sum()
    }

    /// The index of the field with this name.
    pub fn field_named(&self, name: &[u8]) -> Option<usize> {
        self.used_fields()
            .iter()
            .position(|field| field.name == name)
    }

    /// Where the field's bytes are in a record.
    pub fn field_range(&self, index: usize) -> std::ops::Range<usize> {
        let start = self.fields[..index]
            .iter()
            .map(|field| usize::from(field.length))
            .sum();
        start..start + usize::from(self.fields[index].length)
    }
}

impl Definition {
    /// The files in use; at most all places, also where the count is out of range.
    pub fn used_files(&self) -> &[File] {
        &self.files[..usize::from(self.count).min(MAX_FILES)]
    }

    /// The index of the file with this number.
    pub fn file_index(&self, number: u8) -> Option<usize> {
        self.used_files()
            .iter()
            .position(|file| file.number == number)
    }

    /// The greatest width: the length of one image.
    pub fn greatest_record_length(&self) -> usize {
        self.used_files()
            .iter()
            .map(File::record_length)
            .max()
            .unwrap_or(0)
    }

    fn add_file(&mut self, number: u8, max_isn: u16) -> Option<()> {
        let place = self.files.get_mut(usize::from(self.count))?;
        *place = File {
            number,
            max_isn,
            ..File::default()
        };
        self.count += 1;
        Some(())
    }

    /// "A field of the last file": there must be one.
    fn add_field(&mut self, field: Field) -> Option<()> {
        let last = usize::from(self.count).checked_sub(1)?;
        let file = &mut self.files[last];
        *file.fields.get_mut(usize::from(file.count))? = field;
        file.count += 1;
        Some(())
    }
}

/// Reads any bytes as a definition table; none where they break a rule.
pub fn read_table(table: &[u8]) -> Option<Definition> {
    let mut definition = Definition::default();
    let mut rest = table;
    loop {
        match rest {
            [END_ITEM] => break,
            [FILE_ITEM, number, high, low, tail @ ..] => {
                definition.add_file(*number, u16::from_be_bytes([*high, *low]))?;
                rest = tail;
            }
            [FIELD_ITEM, first, second, length, format, option, tail @ ..] => {
                definition.add_field(Field {
                    name: [*first, *second],
                    length: *length,
                    format: *format,
                    option: *option,
                })?;
                rest = tail;
            }
            _ => return None,
        }
    }
    is_valid(&definition).then_some(definition)
}

/// The length of the table at the front of the input, its kind 0 included; none where an item is of an unknown kind
/// or the input ends before kind 0.
pub fn table_length(input: &[u8]) -> Option<usize> {
    let mut at = 0;
    loop {
        match *input.get(at)? {
            END_ITEM => return Some(at + 1),
            FILE_ITEM => at += 4,
            FIELD_ITEM => at += 6,
            _ => return None,
        }
    }
}

/// "A table has a file or more, no file number twice."
pub fn is_valid(definition: &Definition) -> bool {
    let files = definition.used_files();
    (1..=MAX_FILES).contains(&usize::from(definition.count))
        && files.iter().all(is_valid_file)
        && !has_double(files, |file| file.number)
}

/// "A file has 1 to 16 fields, no name twice, at most 512 bytes together."
fn is_valid_file(file: &File) -> bool {
    let fields = file.used_fields();
    (1..=16).contains(&file.number)
        && (1..=GREATEST_MAX_ISN).contains(&file.max_isn)
        && (1..=MAX_FIELDS).contains(&usize::from(file.count))
        && fields.iter().all(is_valid_field)
        && !has_double(fields, |field| field.name)
        && file.record_length() <= MAX_RECORD_LENGTH
}

fn is_valid_field(field: &Field) -> bool {
    is_valid_name(field.name)
        && (1..=greatest_length(field.format)).contains(&field.length)
        && matches!(field.option, b' ' | b'D' | b'U')
}

/// "A capital letter, then a capital or digit, ASCII."
fn is_valid_name(name: [u8; 2]) -> bool {
    matches!(name, [b'A'..=b'Z', b'A'..=b'Z' | b'0'..=b'9'])
}

/// The greatest length of a format; 0 for an unknown format, which so allows no length.
fn greatest_length(format: u8) -> u8 {
    match format {
        b'A' => 253,
        b'B' => 126,
        b'U' => 29,
        b'P' => 15,
        _ => 0,
    }
}

fn has_double<T, K: PartialEq>(items: &[T], key: impl Fn(&T) -> K) -> bool {
    items.iter().enumerate().any(|(place, item)| {
        items[..place]
            .iter()
            .any(|earlier| key(earlier) == key(item))
    })
}
