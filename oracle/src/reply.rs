//! The replies of document 01, one case a row.

/// A reply with its numbers.
#[derive(Clone, Copy, Debug, PartialEq, Eq)]
pub enum Reply {
    Uneven,
    TooLong,
    /// The first place that breaks its row or its place, from 0.
    Malformed(usize),
    /// The pass and the number of faults it found.
    Faulty(u16, usize),
    Swollen,
    /// The key of the first inlined field whose constraint does not fit.
    Unfit(u16),
    /// The key of the first inlined field whose condition no flag can list.
    Loose(u16),
    Overlisted,
    /// The bytes that the table needs.
    NoRoom(usize),
    /// The number of records written.
    Accepted(usize),
}

impl Reply {
    /// The rows' names, from the top.
    pub const NAMES: [&'static str; 10] = [
        "Uneven",
        "TooLong",
        "Malformed",
        "Faulty",
        "Swollen",
        "Unfit",
        "Loose",
        "Overlisted",
        "NoRoom",
        "Accepted",
    ];

    /// The row of this reply, from the top.
    pub fn row(&self) -> usize {
        match self {
            Reply::Uneven => 0,
            Reply::TooLong => 1,
            Reply::Malformed(_) => 2,
            Reply::Faulty(..) => 3,
            Reply::Swollen => 4,
            Reply::Unfit(_) => 5,
            Reply::Loose(_) => 6,
            Reply::Overlisted => 7,
            Reply::NoRoom(_) => 8,
            Reply::Accepted(_) => 9,
        }
    }

    /// The row's name and the reply's numbers, with single blanks.
    pub fn line(&self) -> String {
        let name = Reply::NAMES[self.row()];
        match self {
            Reply::Malformed(number) | Reply::NoRoom(number) | Reply::Accepted(number) => {
                format!("{name} {number}")
            }
            Reply::Unfit(key) | Reply::Loose(key) => format!("{name} {key}"),
            Reply::Faulty(pass, total) => format!("{name} {pass} {total}"),
            Reply::Uneven | Reply::TooLong | Reply::Swollen | Reply::Overlisted => name.to_owned(),
        }
    }
}
