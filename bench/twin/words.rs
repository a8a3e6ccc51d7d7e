//! What a word of the table says: a value, a head, a label or the colours.

#[derive(Clone, Copy, PartialEq, Eq)]
pub enum Value {
    Int(i64),
    Ref(u32),
    Nothing,
}

impl Value {
    pub fn word(self) -> u64 {
        match self {
            Value::Int(v) => (2 * v + 1) as u64,
            Value::Ref(address) => 2 * u64::from(address),
            Value::Nothing => 0,
        }
    }

    pub fn of(word: u64) -> Value {
        if word % 2 == 1 {
            Value::Int(word as i64 >> 1)
        } else if word == 0 {
            Value::Nothing
        } else {
            Value::Ref((word / 2) as u32)
        }
    }
}

#[derive(Clone, Copy)]
pub struct Label {
    pub domain: u32,
    pub serial: u32,
}

impl Label {
    pub fn word(self) -> u64 {
        u64::from(self.serial) * 8 + u64::from(self.domain)
    }

    pub fn of(word: u64) -> Label {
        Label {
            domain: (word % 8) as u32,
            serial: (word / 8) as u32,
        }
    }
}

/// The numbers that mean marked, unmarked and garbage.
#[derive(Clone, Copy)]
pub struct Colours {
    pub marked: u64,
    pub unmarked: u64,
    pub garbage: u64,
}

impl Colours {
    pub fn word(self) -> u64 {
        self.marked + 4 * self.unmarked + 16 * self.garbage
    }

    pub fn of(word: u64) -> Colours {
        Colours {
            marked: word % 4,
            unmarked: word / 4 % 4,
            garbage: word / 16 % 4,
        }
    }

    /// The marked are the unmarked of the next cycle, and the unmarked are garbage.
    pub fn rotated(self) -> Colours {
        Colours {
            marked: self.garbage,
            unmarked: self.marked,
            garbage: self.unmarked,
        }
    }
}

const PLAIN: u64 = 1;
const EPHEMERON: u64 = 2;
const FORWARD: u64 = 3;
const SCANNED: u64 = 32;
const FIRST_RAW: u64 = 251;

pub fn plain_head(size: u16, tag: u8, colour: u64) -> u64 {
    PLAIN + 8 * colour + 256 * u64::from(tag) + 65536 * u64::from(size)
}

pub fn ephemeron_head(keys: u16, colour: u64) -> u64 {
    EPHEMERON + 8 * colour + 65536 * u64::from(keys)
}

pub fn forward_head(copy: u32) -> u64 {
    FORWARD + (u64::from(copy) << 32)
}

/// The copy to which a head leads.
pub fn copy_of(head: u64) -> Option<u32> {
    (head % 8 == FORWARD).then_some((head >> 32) as u32)
}

fn size_of(head: u64) -> u32 {
    (head >> 16) as u32 % 65536
}

/// The count of fields of a plain or a raw block.
pub fn field_count(head: u64) -> Option<u32> {
    (head % 8 == PLAIN).then(|| size_of(head))
}

/// Whether a head is that of a raw block, which its tag tells.
pub fn is_raw(head: u64) -> bool {
    head % 8 == PLAIN && FIRST_RAW <= head / 256 % 256
}

/// The count of keys of an ephemeron.
pub fn key_count(head: u64) -> Option<u32> {
    (head % 8 == EPHEMERON).then(|| size_of(head))
}

/// The words of a block, with head and label.
pub fn words_of(head: u64) -> u32 {
    size_of(head) + if head % 8 == EPHEMERON { 3 } else { 2 }
}

pub fn has_colour(head: u64, colour: u64) -> bool {
    head % 8 != 0 && head / 8 % 4 == colour
}

pub fn is_scanned(head: u64) -> bool {
    head & SCANNED != 0
}

pub fn scanned(head: u64) -> u64 {
    head | SCANNED
}

/// The head in another colour, and not scanned but for that of a raw block, which leads nowhere.
pub fn darkened(head: u64, colour: u64) -> u64 {
    let coloured = head & !(SCANNED + 24) | 8 * colour;
    if is_raw(head) {
        scanned(coloured)
    } else {
        coloured
    }
}
