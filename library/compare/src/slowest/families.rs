//! Tables built to be slow: each family is about one search of the library, and is made with names of several sorts.

use oracle::record::{kind, Record, MOST_RECORDS};

pub type Table = Vec<Record>;
type Families = Vec<(&'static str, Table)>;
/// Names, or values, by number.
type Naming = fn(usize) -> u16;

/// Sixteen names of each of a hundred remainders modulo 4,093, by which the library finds names; numbers 100 apart have one remainder.
const COLLIDING: Naming = |at| (3 + at % 100 + 4_093 * (at / 100)) as u16;

const NAMINGS: [(&str, Naming); 4] = [
    ("equal", |_| 3),
    ("apart", |at| 3 + at as u16),
    ("colliding", COLLIDING),
    ("twice", |at| 3 + (at % 800) as u16),
];

/// A built table; the shape says of which sort its names are.
pub struct Built {
    pub family: &'static str,
    pub shape: &'static str,
    pub table: Table,
}

/// Every built table.
pub fn built() -> Vec<Built> {
    let of = |shape, families: Families| {
        families.into_iter().map(move |(family, table)| Built { family, shape, table })
    };
    let mut all: Vec<Built> = of("", groups()).collect();
    for (shape, names) in NAMINGS {
        for make in [declarations, references, fields, sizes, conditions, children, tags, ranges] {
            all.extend(of(shape, make(names)));
        }
    }
    for Built { table, .. } in &mut all {
        table.truncate(MOST_RECORDS);
    }
    all
}

fn named(kind: u8, name: u16) -> Record {
    let is_sized = matches!(kind, kind::SCALAR | kind::ENUM);
    Record { name, one: if is_sized { 16 } else { 0 }, ..Record::of(kind) }
}

fn naming(kind: u8, second: u16) -> Record {
    Record { second, ..Record::of(kind) }
}

fn condition(name: u16) -> Record {
    Record { marks: 1, one: 1, ..named(kind::CONDITION, name) }
}

/// An array of a type, or of bytes if that is 0, with a fixed count.
fn array(name: u16, second: u16) -> Record {
    let (marks, one) = if second == 0 { (3, 8) } else { (2, 0) };
    Record { marks, one, second, two: 1, ..named(kind::ARRAY, name) }
}

/// A declaration with its members, `N` for each number below the count.
fn holding<const N: usize>(
    head: Record,
    count: usize,
    member: impl Fn(usize) -> [Record; N],
) -> Table {
    std::iter::once(head).chain((0..count).flat_map(member)).collect()
}

/// Declarations alone, and tests.
fn declarations(names: Naming) -> Families {
    let packet = |at| named(kind::PACKET, names(at));
    let child = |at, parent| Record { second: parent, ..packet(at) };
    let parent = |at: usize| if at == 0 { 0 } else { names(at - 1) };
    let children = (0..1_599).map(|at| child(at, names(1_599)));
    let tests = |second| holding(packet(0), 1_598, |_| [naming(kind::TEST, second)]);
    vec![
        ("packets", (0..1_600).map(packet).collect()),
        ("parent chain from its root", (0..1_600).map(|at| child(at, parent(at))).collect()),
        ("parent chain to its root", (0..1_600).rev().map(|at| child(at, parent(at))).collect()),
        ("children of the last", children.chain([packet(1_599)]).collect()),
        ("missing parents", (0..1_500).map(|at| child(at, names(1_500 + at % 100))).collect()),
        ("tests of the last packet", [tests(names(100)), vec![packet(100)]].concat()),
        ("tests of a missing packet", tests(names(200))),
    ]
}

/// Fields that name the last declaration; the first one's name has the same remainder if names collide.
fn references(names: Naming) -> Families {
    let (packet, last) = (named(kind::PACKET, names(0)), |kind| named(kind, names(100)));
    let many = |count, field: &dyn Fn(usize) -> Record| holding(packet, count, |at| [field(at)]);
    let typedef = |at, second| Record { second, ..named(kind::TYPEDEF, names(at)) };
    let typed_array = |at| array(names(at), names(100));
    let group_field = |_| naming(kind::GROUP_FIELD, names(100));
    let tag = |at| Record { one: at as u64, ..named(kind::TAG_VALUE, at as u16 + 1) };
    let tagged = |count| holding(last(kind::ENUM), count, |at| [tag(at)]);
    let fixed = |third| move |_| Record { third, ..naming(kind::FIXED_ENUM, names(100)) };
    vec![
        ("typedefs", [many(1_598, &|at| typedef(at, names(100))), tagged(0)].concat()),
        ("typedefs of a missing name", many(1_598, &|at| typedef(at, names(200)))),
        ("typed arrays", [many(1_598, &typed_array), vec![last(kind::STRUCT)]].concat()),
        ("group fields", [many(1_598, &group_field), vec![last(kind::GROUP)]].concat()),
        ("fixed tags", [many(1_597, &fixed(1)), tagged(1)].concat()),
        ("fixed tags of a long enum", [many(799, &fixed(799)), tagged(799)].concat()),
        ("missing fixed tags of a long enum", [many(799, &fixed(800)), tagged(799)].concat()),
    ]
}

/// The fields of one packet.
fn fields(names: Naming) -> Families {
    let packet = named(kind::PACKET, 3);
    let padding = Record { one: 9, ..Record::of(kind::PADDING) };
    let conditional = |at| [array(names(at), 0), condition(names(at + 1)), padding];
    vec![
        ("scalars", holding(packet, 1_599, |at| [named(kind::SCALAR, names(at))])),
        ("fixed arrays", holding(packet, 1_599, |at| [array(names(at), 0)])),
        ("payloads", holding(packet, 1_599, |_| [Record::of(kind::PAYLOAD)])),
        ("paddings", holding(packet, 1_599, |_| [padding])),
        ("padded conditional arrays", holding(packet, 533, conditional)),
        ("fixed arrays in a group", {
            let group = holding(named(kind::GROUP, 4), 1_597, |at| [array(names(at), 0)]);
            [group, vec![packet, naming(kind::GROUP_FIELD, 4)]].concat()
        }),
    ]
}

/// Sizes, counts and element sizes in every order with what they name.
fn sizes(names: Naming) -> Families {
    let packet = [named(kind::PACKET, 3)];
    let mut families = Vec::new();
    for sized in [kind::SIZE, kind::COUNT, kind::ELEMENT_SIZE] {
        let size = |at| naming(sized, names(at));
        let countless = |at| Record { marks: 1, two: 0, ..array(names(at), 0) };
        let sizes: Table = (0..799).map(size).collect();
        let arrays: Table = (0..799).map(countless).collect();
        let fixed: Table = (0..799).map(|at| array(names(at), 0)).collect();
        let scalars: Table = (0..799).map(|at| named(kind::SCALAR, names(at))).collect();
        let back: Table = arrays.iter().rev().copied().collect();
        let missing: Table = (0..1_500).map(size).collect();
        families.extend([
            ("sizes, then arrays", [&packet[..], &sizes, &arrays].concat()),
            ("sizes, then arrays backwards", [&packet[..], &sizes, &back].concat()),
            ("arrays, then sizes", [&packet[..], &arrays, &sizes].concat()),
            ("fixed arrays, then sizes", [&packet[..], &fixed, &sizes].concat()),
            ("scalars, then sizes", [&packet[..], &scalars, &sizes].concat()),
            ("sizes of missing arrays", [&packet[..], &missing].concat()),
            ("sizes with their arrays", holding(packet[0], 799, |at| [size(at), countless(at)])),
        ]);
    }
    families
}

/// Conditions: on one flag, on a flag each, and on names that only look like those of the fields.
fn conditions(names: Naming) -> Families {
    let scalar = |at| named(kind::SCALAR, names(at));
    let one = |at| [scalar(at), condition(names(0))];
    let own = |at| [scalar(2 * at), scalar(2 * at + 1), condition(names(2 * at))];
    let flagless = |field: &dyn Fn(usize) -> Record| {
        let marking = |at| [field(at), condition(names(1_500 + at))];
        let marked = holding(named(kind::PACKET, names(0)), 100, marking);
        marked.into_iter().chain((100..1_498).map(field)).collect::<Table>()
    };
    let typed = |at| array(names(at), names(100));
    vec![
        ("conditions on one flag", holding(named(kind::PACKET, 3), 533, one)),
        ("too many conditions on one flag", holding(named(kind::PACKET, 3), 799, one)),
        ("conditions on a flag each", holding(named(kind::PACKET, 3), 399, own)),
        ("conditions without flags", flagless(&scalar)),
        ("conditions without flags, typed arrays", {
            [flagless(&typed), vec![named(kind::STRUCT, names(100))]].concat()
        }),
    ]
}

/// Parents of children with fields, with and without a payload.
fn children(names: Naming) -> Families {
    let packet = |at, second| Record { second, ..named(kind::PACKET, names(at)) };
    let child = |at, parent: u16| [packet(at, parent), named(kind::SCALAR, 3)];
    let parent = |at: usize| if at == 0 { 0 } else { names(at - 1) };
    let backwards = (0..533).flat_map(|at| child(533 + at, names(532 - at)));
    let few = |parent: &dyn Fn(usize) -> Table, others: u16| {
        let children = (0..100).flat_map(|at| child(100 + at, names(at)));
        let mut table: Table = (0..100).flat_map(parent).chain(children).collect();
        table.extend((table.len()..1_599).map(|at| packet(at - 100, others)));
        table.push(packet(1_500, 0));
        table
    };
    let bare = |at| vec![packet(at, 0)];
    let with_payload = |at| vec![packet(at, 0), Record::of(kind::PAYLOAD)];
    vec![
        ("chain with fields", (0..800).flat_map(|at| child(at, parent(at))).collect()),
        ("children backwards", (0..533).map(|at| packet(at, 0)).chain(backwards).collect()),
        ("few parents", few(&bare, 0)),
        ("few parents with payloads", few(&with_payload, 0)),
        ("few parents with payloads, the last of all", few(&with_payload, names(1_500))),
    ]
}

/// Enums of values, of values in a range and of default tags.
fn tags(names: Naming) -> Families {
    let head = named(kind::ENUM, 3);
    let tag = |kind, at, one| Record { one, ..named(kind, names(at)) };
    let values =
        |value: Naming| holding(head, 1_599, |at| [tag(kind::TAG_VALUE, at, u64::from(value(at)))]);
    let inner = |value: Naming| {
        let range = Record { two: 65_535, ..named(kind::TAG_RANGE, 1) };
        let inside = (0..1_598).map(|at| tag(kind::INNER_VALUE, at, u64::from(value(at))));
        [head, range].into_iter().chain(inside).collect::<Table>()
    };
    vec![
        ("equal values", values(|_| 3)),
        ("values apart", values(|at| at as u16)),
        ("colliding values", values(COLLIDING)),
        ("equal values in a range", inner(|_| 3)),
        ("values apart in a range", inner(|at| at as u16)),
        ("colliding values in a range", inner(COLLIDING)),
        ("default tags", holding(head, 1_599, |at| [named(kind::DEFAULT_TAG, names(at))])),
    ]
}

/// Enums of ranges in every order, and of ranges and values.
fn ranges(names: Naming) -> Families {
    let head = named(kind::ENUM, 3);
    let range = |at, one, two| Record { one, two, ..named(kind::TAG_RANGE, names(at)) };
    let value = |kind, at: usize, one: usize| Record { one: one as u64, ..named(kind, names(at)) };
    let all = |bounds: fn(u64) -> (u64, u64)| {
        let bounded = |at, (low, high)| [range(at, low, high)];
        holding(head, 1_599, |at| bounded(at, bounds(at as u64)))
    };
    let wide: Table = (0..800).map(|at| range(at, 0, 65_535)).collect();
    let apart: Table = (0..800).map(|at| range(at, 4 * at as u64, 4 * at as u64 + 1)).collect();
    let values: Table = (0..799).map(|at| value(kind::TAG_VALUE, 800 + at, 4 * at + 2)).collect();
    let with_inner = |at| [range(at, 0, 65_535), value(kind::INNER_VALUE, 800 + at, at)];
    vec![
        ("ranges ascending", all(|at| (4 * at, 4 * at + 1))),
        ("ranges descending", all(|at| (9_000 - 4 * at, 9_001 - 4 * at))),
        ("ranges nested", all(|at| (at, 9_000 - at))),
        ("ranges all equal", all(|_| (3, 9))),
        ("values that all ranges hold", [&[head], &wide[..], &values].concat()),
        ("values that no range holds", [&[head], &apart[..], &values].concat()),
        ("ranges of one value each", holding(head, 799, with_inner)),
    ]
}

/// A chain of groups around the innermost, as deep as there is room, inlined as often as the factors multiply to into a packet
/// with some last fields; each level has constraints.
fn deep(constraints: usize, innermost: Table, factors: &[usize], last: &[Record]) -> Table {
    let mut table = innermost;
    let ends = factors.iter().map(|factor| factor + 1).sum::<usize>() + last.len();
    let levels = (MOST_RECORDS - table.len() - ends) / (2 + constraints);
    let mut steps = vec![(1, constraints); levels];
    steps.extend(factors.iter().map(|&factor| (factor, 0)));
    for (at, &(times, constraints)) in steps.iter().enumerate() {
        let kind = if at + 1 == steps.len() { kind::PACKET } else { kind::GROUP };
        table.push(named(kind, COLLIDING(at + 1)));
        for _ in 0..times {
            table.push(naming(kind::GROUP_FIELD, COLLIDING(at)));
            table.extend((0..constraints).map(|at| named(kind::CONSTRAINT, 6_000 + at as u16)));
        }
    }
    table.extend(last);
    table
}

/// Groups one in another, and groups of many fields, inlined often.
fn groups() -> Families {
    let scalar = |at| [named(kind::SCALAR, 5_000 + at as u16)];
    let head = named(kind::GROUP, COLLIDING(0));
    let inner = |fields| holding(head, fields, scalar);
    let empty = [named(kind::GROUP, 1), head, scalar(0)[0]];
    let empties = [&empty[..], &[naming(kind::GROUP_FIELD, 1); 1_569]].concat();
    // Few records for many fields: 1,575 of the 1,599 that a packet may have.
    let often = [3, 3, 5, 5, 7];
    // No field has the condition's name, but one of the same remainder.
    let conditional = [named(kind::SCALAR, 9_000), condition(5_000 + 4_093)];
    vec![
        ("groups, deep", deep(0, inner(1), &often, &[])),
        ("groups, deep, a condition", deep(0, inner(1), &often, &conditional)),
        ("groups, deep, a constraint each", deep(1, inner(1), &often, &[])),
        ("groups, deep, two constraints each", deep(2, inner(1), &often, &[])),
        ("groups, deep, ten constraints each", deep(10, inner(1), &often, &[])),
        ("groups, all constraints in one", deep(1_566, inner(1), &often, &conditional)),
        ("groups, deep, in one packet", deep(0, inner(1), &[800], &[])),
        ("groups, deep, ten fields", deep(1, inner(10), &[2, 3, 5, 5], &[])),
        ("groups, many fields and constraints", deep(797, inner(797), &[2], &[])),
        ("groups, many empty ones", deep(0, empties, &often, &[])),
    ]
}
