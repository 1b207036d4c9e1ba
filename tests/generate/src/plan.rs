//! A book as a plan that can be changed, lawfully or not, before it is laid out in bytes.

#[derive(Clone, Debug)]
pub struct Kind {
    pub settings: u8,
    pub inherited: u8,
}

#[derive(Clone, Debug)]
pub struct Entry {
    pub left: u8,
    pub children: Vec<u8>,
    pub pairs: Vec<(u8, u8)>,
}

#[derive(Clone, Debug, Default)]
pub struct Plan {
    pub kinds: Vec<Kind>,
    pub entries: Vec<Entry>,
    pub start: u8,
}

impl Plan {
    /// Adds a kind and gives its number.
    pub fn kind(&mut self, settings: u8, inherited: u8) -> u8 {
        self.kinds.push(Kind { settings, inherited });
        self.kinds.len() as u8 - 1
    }

    /// Adds a production; its pairs are put in order.
    pub fn production(&mut self, left: u8, children: &[u8], pairs: &[(u8, u8)]) {
        let mut pairs = pairs.to_vec();
        pairs.sort();
        pairs.dedup();
        self.entries.push(Entry { left, children: children.to_vec(), pairs });
    }

    /// The existing occurrences of a production.
    pub fn occurrences(&self, entry: &Entry) -> Vec<u8> {
        let slots = std::iter::once(&entry.left).chain(&entry.children).zip(0..);
        slots.flat_map(|(&kind, slot)| (0..self.kinds[kind as usize].settings).map(move |s| 8 * slot + s)).collect()
    }

    /// Those that a pair may name as "to": synthesized in slot 0, inherited in a child.
    pub fn settable(&self, entry: &Entry) -> Vec<u8> {
        let kinds: Vec<u8> = std::iter::once(&entry.left).chain(&entry.children).copied().collect();
        let lawful = |occurrence: &u8| {
            let kind = &self.kinds[kinds[(occurrence >> 3) as usize] as usize];
            (kind.inherited >> (occurrence & 7) & 1 == 1) == (occurrence >> 3 != 0)
        };
        self.occurrences(entry).into_iter().filter(lawful).collect()
    }

    /// Where a production's entry begins in the book.
    pub fn offset(&self, entry: usize) -> usize {
        let length = |entry: &Entry| 3 + entry.children.len() + 2 * entry.pairs.len();
        2 * self.kinds.len() + self.entries[..entry].iter().map(length).sum::<usize>()
    }

    pub fn bytes(&self) -> Vec<u8> {
        let mut book: Vec<u8> = self.kinds.iter().flat_map(|kind| [kind.settings, kind.inherited]).collect();
        for entry in &self.entries {
            book.extend([entry.left, entry.children.len() as u8]);
            book.extend(&entry.children);
            book.push(entry.pairs.len() as u8);
            book.extend(entry.pairs.iter().flat_map(|&(to, from)| [to, from]));
        }
        let (n, p, trailer) = (self.kinds.len(), self.entries.len(), book.len());
        for field in [1, n, p, self.start as usize, trailer, trailer - 2 * n] {
            book.extend((field as u16).to_le_bytes());
        }
        book
    }
}

/// The trailer's fields, for changing one of them in a book of at least 12 bytes.
#[derive(Clone, Copy)]
pub enum Field {
    Edition,
    Kinds,
    Productions,
    Start,
    BackToKinds,
    BackToProductions,
}

pub fn field(book: &[u8], field: Field) -> u16 {
    let at = book.len() - 12 + 2 * field as usize;
    u16::from_le_bytes([book[at], book[at + 1]])
}

pub fn set_field(book: &mut [u8], field: Field, value: u16) {
    let at = book.len() - 12 + 2 * field as usize;
    book[at..at + 2].copy_from_slice(&value.to_le_bytes());
}
