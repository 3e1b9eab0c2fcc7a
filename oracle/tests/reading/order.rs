//! Pass 2, by module 3 of document 01.

use crate::table::{fault, Declaration, Part};
use oracle::fault::Fault;
use oracle::record::kind;

#[derive(Clone, Copy, PartialEq)]
enum State {
    Unvisited,
    BeingVisited,
    Listed,
}

struct Walk<'w, 'a> {
    declared: &'w [Declaration<'a>],
    states: Vec<State>,
    listed: Vec<usize>,
    faults: Vec<Fault>,
}

/// The faults of pass 2, and the declarations in listed order.
pub fn pass2<'a>(declared: &[Declaration<'a>]) -> (Vec<Fault>, Vec<Declaration<'a>>) {
    let states = vec![State::Unvisited; declared.len()];
    let mut walk = Walk { declared, states, listed: Vec::new(), faults: Vec::new() };
    for (at, declaration) in declared.iter().enumerate() {
        if declaration.head.kind != kind::TEST {
            walk.visit(at);
            continue;
        }
        match walk.find(declaration.head.second) {
            None => walk.faults.push(fault(9, declaration.head, None)),
            Some(found) if declared[found].head.kind != kind::PACKET => {
                walk.faults.push(fault(10, declaration.head, None))
            }
            Some(_) => (),
        }
    }
    let listed = walk.listed.iter().map(|&at| declared[at].clone()).collect();
    (walk.faults, listed)
}

impl<'a> Walk<'_, 'a> {
    fn find(&self, name: u16) -> Option<usize> {
        let named = |found: &Declaration| found.head.kind != kind::TEST && found.head.name == name;
        self.declared.iter().position(named)
    }

    fn visit(&mut self, at: usize) {
        let declaration = &self.declared[at];
        match self.states[at] {
            State::Listed => return,
            State::BeingVisited => return self.faults.push(fault(2, declaration.head, None)),
            State::Unvisited => self.states[at] = State::BeingVisited,
        }
        for field in declaration.fields() {
            match field.record.kind {
                kind::GROUP_FIELD => self.group_field(field),
                kind::TYPEDEF => self.typed(field, true),
                kind::ARRAY if field.record.second != 0 => {
                    self.typed(field, field.record.has_mark(1))
                }
                _ => (),
            }
        }
        if matches!(declaration.head.kind, kind::PACKET | kind::STRUCT)
            && declaration.head.second != 0
        {
            self.parent(declaration);
        }
        self.states[at] = State::Listed;
        self.listed.push(at);
    }

    fn group_field(&mut self, field: &Part<'a>) {
        match self.find(field.record.second) {
            None => self.faults.push(fault(3, field.record, None)),
            Some(found) if self.declared[found].head.kind != kind::GROUP => {
                self.faults.push(fault(4, field.record, None))
            }
            Some(found) => self.visit(found),
        }
    }

    fn typed(&mut self, field: &Part<'a>, is_followed: bool) {
        match self.find(field.record.second) {
            None => self.faults.push(fault(5, field.record, None)),
            Some(found) if self.declared[found].head.kind == kind::PACKET => {
                self.faults.push(fault(6, field.record, None))
            }
            Some(found) if is_followed => self.visit(found),
            Some(_) => (),
        }
    }

    fn parent(&mut self, child: &Declaration<'a>) {
        match self.find(child.head.second) {
            None => self.faults.push(fault(7, child.head, None)),
            Some(found) if self.declared[found].head.kind != child.head.kind => {
                self.faults.push(fault(8, child.head, None))
            }
            Some(found) => self.visit(found),
        }
    }
}
