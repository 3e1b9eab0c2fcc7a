//! A table in the making: declarations with their parts, not yet in an order.

use crate::random::Random;
use crate::record::{kind, Record};

/// Numbers at the edges of widths and of the integers.
pub const EDGES: [u64; 16] =
    [0, 1, 2, 7, 8, 16, 31, 32, 63, 64, 65, 255, 256, 1 << 32, 1 << 63, u64::MAX];

/// One declaration. A part is a field with what belongs to it, or a tag with its inner values.
#[derive(Clone, Debug)]
pub struct Draft {
    pub head: Record,
    pub constraints: Vec<Record>,
    pub parts: Vec<Vec<Record>>,
}

impl Draft {
    pub fn new(head: Record) -> Draft {
        Draft { head, constraints: Vec::new(), parts: Vec::new() }
    }

    pub fn has_fields(&self) -> bool {
        matches!(self.head.kind, kind::PACKET | kind::STRUCT | kind::GROUP)
    }

    pub fn is_child(&self) -> bool {
        matches!(self.head.kind, kind::PACKET | kind::STRUCT) && self.head.second != 0
    }

    pub fn has_payload(&self) -> bool {
        self.records().any(|record| matches!(record.kind, kind::PAYLOAD | kind::BODY))
    }

    pub fn records(&self) -> impl Iterator<Item = &Record> {
        self.parts.iter().flatten()
    }

    /// The names of the fields 30, 31 and 33.
    pub fn field_names(&self) -> Vec<u16> {
        let named =
            |record: &&Record| matches!(record.kind, kind::ARRAY | kind::SCALAR | kind::TYPEDEF);
        self.records().filter(named).map(|record| record.name).collect()
    }
}

/// The declarations made so far, and where fresh names come from.
pub struct Drafting<'r> {
    pub random: &'r mut Random,
    pub drafts: Vec<Draft>,
    /// Set where a parent without payload is wanted.
    pub keeps_missing_payload: bool,
    declaration_base: usize,
    field_base: usize,
    tag_base: usize,
    declared: usize,
    fresh: usize,
}

impl<'r> Drafting<'r> {
    pub fn new(random: &'r mut Random) -> Drafting<'r> {
        let bases = [1, 1, 2, 3, 10, 10, 100, 300, 65_400, 65_535];
        let declaration_base = random.pick(&bases);
        // Fields and declarations share their numbers in a share of the tables.
        let field_base = random.pick(&bases);
        let tag_base = random.pick(&bases);
        Drafting {
            random,
            drafts: Vec::new(),
            keeps_missing_payload: false,
            declaration_base,
            field_base,
            tag_base,
            declared: 0,
            fresh: 5_000,
        }
    }

    /// A declaration name not used before.
    pub fn declaration_name(&mut self) -> u16 {
        self.declared += 1;
        name_at(self.declaration_base + self.declared - 1)
    }

    /// A name that no declaration has.
    pub fn missing_name(&mut self) -> u16 {
        name_at(self.declaration_base + 30_000 + self.random.below(5))
    }

    /// The field name with this number within its declaration.
    pub fn field_name(&self, number: usize) -> u16 {
        name_at(self.field_base + number)
    }

    /// The tag name with this number within its enum.
    pub fn tag_name(&self, number: usize) -> u16 {
        name_at(self.tag_base + number)
    }

    /// A number for a field or tag name that none has yet.
    pub fn fresh_number(&mut self) -> usize {
        self.fresh += 1;
        self.fresh
    }

    pub fn fresh_field(&mut self) -> u16 {
        let number = self.fresh_number();
        self.field_name(number)
    }

    pub fn fresh_tag(&mut self) -> u16 {
        let number = self.fresh_number();
        self.tag_name(number)
    }

    /// Any width, mostly a usual one.
    pub fn width(&mut self) -> u64 {
        if self.random.chance(15) {
            self.random.pick(&EDGES)
        } else {
            self.random.pick(&[1, 3, 8, 8, 16, 24, 32, 64])
        }
    }

    /// Adds a declaration of a kind with a new name, and gives its index.
    pub fn add(&mut self, kind: u8) -> usize {
        let name = self.declaration_name();
        let one = if matches!(kind, kind::CHECKSUM | kind::ENUM) { self.width() } else { 0 };
        self.drafts.push(Draft::new(Record { name, one, ..Record::of(kind) }));
        self.drafts.len() - 1
    }

    /// The indices of the declarations of some kinds.
    pub fn of_kinds(&self, kinds: &[u8]) -> Vec<usize> {
        let wanted = |&at: &usize| kinds.contains(&self.drafts[at].head.kind);
        (0..self.drafts.len()).filter(wanted).collect()
    }

    /// A declaration of one of some kinds, made if there is none and now and then anyway.
    pub fn host(&mut self, kinds: &[u8]) -> usize {
        let found = self.of_kinds(kinds);
        if found.is_empty() || self.random.chance(20) {
            let kind = self.random.pick(kinds);
            self.add(kind)
        } else {
            self.random.pick(&found)
        }
    }

    /// A declaration with fields.
    pub fn field_host(&mut self) -> usize {
        self.host(&[kind::PACKET, kind::STRUCT, kind::GROUP])
    }

    /// Puts a part somewhere among the parts of a declaration.
    pub fn insert(&mut self, host: usize, part: Vec<Record>) {
        let at = self.random.below(self.drafts[host].parts.len() + 1);
        self.drafts[host].parts.insert(at, part);
    }
}

/// The name with this number: never 0, and different for numbers less than 65,535 apart.
fn name_at(number: usize) -> u16 {
    1 + ((number + 65_534) % 65_535) as u16
}
