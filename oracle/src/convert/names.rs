//! Name numbers and their spellings.

const PAYLOAD: &str = "_payload_";
const BODY: &str = "_body_";

/// The spelling of a name: different numbers have different spellings.
pub fn spelled(name: u16) -> String {
    match name {
        1 => PAYLOAD.to_owned(),
        2 => BODY.to_owned(),
        _ => format!("n{name}"),
    }
}

/// The spelling of an optional name, where 0 is none.
pub fn spelled_if_any(name: u16) -> Option<String> {
    (name != 0).then(|| spelled(name))
}

/// The number of a spelling that `spelled` made.
pub fn numbered(spelling: &str) -> u16 {
    match spelling {
        PAYLOAD => 1,
        BODY => 2,
        _ => spelling
            .strip_prefix('n')
            .and_then(|number| number.parse().ok())
            .expect("a spelled number"),
    }
}

/// The number of an optional spelling, where none is 0.
pub fn numbered_if_any(spelling: &Option<String>) -> u16 {
    spelling.as_deref().map_or(0, numbered)
}
