//! What inlining would do, without calling the Rust: sizes, and the fields that make it panic.

use crate::ast::*;
use crate::record::MOST_RECORDS;
use std::collections::HashMap;

/// Sizes stop here, so that doubled groups cannot overflow.
const TOO_MANY: usize = MOST_RECORDS + 1;

/// So many group fields are walked soon.
const MOST_WALKS: u64 = 20_000;

/// The number of records each group expands to, by name.
pub type Sizes = HashMap<String, usize>;

/// The sizes of the groups of a listed file, where each group stands behind the groups it names.
pub fn sizes(listed: &File) -> Sizes {
    let mut sizes = Sizes::new();
    for decl in &listed.declarations {
        if let DeclDesc::Group { id, fields } = &decl.desc {
            let size = fields_size(fields.iter(), &sizes);
            sizes.insert(id.clone(), size);
        }
    }
    sizes
}

fn fields_size<'a>(fields: impl Iterator<Item = &'a Field>, sizes: &Sizes) -> usize {
    fields.fold(0, |sum, field| TOO_MANY.min(sum + field_size(field, sizes)))
}

/// The records of a field once inlined; a group field's own condition and constraints bring none.
fn field_size(field: &Field, sizes: &Sizes) -> usize {
    match &field.desc {
        FieldDesc::Group { group_id, .. } => sizes[group_id],
        _ => 1 + usize::from(field.cond.is_some()),
    }
}

/// Whether the inlined table has more records than a table holds.
pub fn is_swollen(listed: &File, sizes: &Sizes) -> bool {
    let kept = listed.declarations.iter().map(|decl| declaration_size(decl, sizes));
    kept.fold(0, |sum, size| TOO_MANY.min(sum + size)) > MOST_RECORDS
}

/// The records that a declaration brings to the inlined table.
fn declaration_size(decl: &Decl, sizes: &Sizes) -> usize {
    match &decl.desc {
        DeclDesc::Group { .. } => 0,
        DeclDesc::Enum { tags, .. } => 1 + tags.iter().map(tag_size).sum::<usize>(),
        _ => 1 + decl.constraints().len() + fields_size(decl.fields(), sizes),
    }
}

fn tag_size(tag: &Tag) -> usize {
    match tag {
        Tag::Range(range) => 1 + range.tags.len(),
        Tag::Value(_) | Tag::Other(_) => 1,
    }
}

/// The file without the group fields that expand to nothing: walking them could take forever.
pub fn without_empty_groups(listed: &File, sizes: &Sizes) -> File {
    let mut file = listed.clone();
    for decl in &mut file.declarations {
        if let DeclDesc::Packet { fields, .. }
        | DeclDesc::Struct { fields, .. }
        | DeclDesc::Group { fields, .. } = &mut decl.desc
        {
            fields.retain(|field| field_size(field, sizes) > 0);
        }
    }
    file
}

/// The constraints that hold at some depth of inlining, the innermost first.
struct Holding<'a> {
    constraints: &'a [Constraint],
    outer: Option<&'a Holding<'a>>,
}

impl Holding<'_> {
    /// The constraint that holds for a name: the innermost, then the last.
    fn find(&self, id: &str) -> Option<&Constraint> {
        let own = self.constraints.iter().rev().find(|held| held.id == id);
        own.or_else(|| self.outer.and_then(|outer| outer.find(id)))
    }
}

/// The key of the first inlined field whose constraint does not fit; the file has no empty groups.
pub fn first_unfit(file: &File) -> Option<FieldKey> {
    let groups = groups_by_name(file);
    let nothing = Holding { constraints: &[], outer: None };
    let kept = file.declarations.iter().filter(|d| !matches!(d.desc, DeclDesc::Group { .. }));
    kept.flat_map(Decl::fields).find_map(|field| unfit_in(field, &groups, &nothing))
}

fn groups_by_name(file: &File) -> HashMap<&str, &Decl> {
    let groups = file.declarations.iter().filter(|d| matches!(d.desc, DeclDesc::Group { .. }));
    groups.filter_map(|decl| decl.id().map(|id| (id, decl))).collect()
}

fn unfit_in(field: &Field, groups: &HashMap<&str, &Decl>, holding: &Holding) -> Option<FieldKey> {
    let is_unfit = match &field.desc {
        FieldDesc::Group { group_id, constraints } => {
            let inner = Holding { constraints, outer: Some(holding) };
            let mut fields = groups[group_id.as_str()].fields();
            return fields.find_map(|field| unfit_in(field, groups, &inner));
        }
        FieldDesc::Scalar { id, .. } => holding.find(id).is_some_and(|held| held.value.is_none()),
        FieldDesc::Typedef { id, .. } => holding.find(id).is_some_and(|held| held.tag_id.is_none()),
        _ => false,
    };
    is_unfit.then_some(field.key)
}

/// The key of the first field of the inlined file with a condition that no flag can list.
pub fn first_loose(inlined: &File) -> Option<FieldKey> {
    let mut fields = inlined.declarations.iter().flat_map(Decl::fields);
    fields.find(|field| is_loose(field)).map(|field| field.key)
}

fn is_loose(field: &Field) -> bool {
    field.cond.as_ref().is_some_and(|cond| field.id().is_none() || cond.value.is_none())
}

/// Whether `inline_groups` would end soon although the empty groups are left in.
pub fn is_soon_walked(listed: &File) -> bool {
    walks(listed) <= MOST_WALKS
}

/// The group fields that `inline_groups` would walk, saturating.
fn walks(listed: &File) -> u64 {
    let mut by_group: HashMap<&str, u64> = HashMap::new();
    let mut sum = 0_u64;
    for decl in &listed.declarations {
        let own = decl.fields().fold(0, |sum: u64, field| match &field.desc {
            FieldDesc::Group { group_id, .. } => {
                sum.saturating_add(1 + by_group[group_id.as_str()])
            }
            _ => sum,
        });
        match (&decl.desc, Decl::id(decl)) {
            (DeclDesc::Group { .. }, Some(id)) => {
                by_group.insert(id, own.min(u64::MAX / 2));
            }
            _ => sum = sum.saturating_add(own),
        }
    }
    sum
}
