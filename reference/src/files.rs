//! Builders of files, field by field.

/// A field with a tag and contents.
pub fn field(tag: u8, contents: &[u8]) -> Vec<u8> {
    let length = (contents.len() as u16).to_be_bytes();
    [&[tag], &length[..], contents].concat()
}

/// A field 11.
pub fn class(kind: u8, low: u16, high: u16) -> Vec<u8> {
    field(0x11, &[&[kind], &low.to_be_bytes()[..], &high.to_be_bytes()[..]].concat())
}

/// A field 11 with a step.
pub fn stepped_class(kind: u8, low: u16, high: u16, step: u16) -> Vec<u8> {
    let numbers = [low, high, step].map(u16::to_be_bytes).concat();
    field(0x11, &[&[kind], &numbers[..]].concat())
}

/// A field 12.
pub fn production(result: u8, name: u8, arguments: &[u8]) -> Vec<u8> {
    field(0x12, &[&[result, name], arguments].concat())
}

/// A field 22.
pub fn mapping(source: u8, target: u8) -> Vec<u8> {
    field(0x22, &[source, target])
}

/// A field 23.
pub fn clause(result: u8, name: u8, code: &[u8]) -> Vec<u8> {
    field(0x23, &[&[result, name], code].concat())
}

/// A field 28.
pub fn numbered_mapping(kind: u8, number: u8, target: u8) -> Vec<u8> {
    field(0x28, &[kind, number, target])
}

/// A field 29.
pub fn numbered_clause(result: u8, name: u8, number: u8, code: &[u8]) -> Vec<u8> {
    field(0x29, &[&[result, name, number], code].concat())
}

/// A field 24.
pub fn load(result: u8, name: u8, constant: i16, factors: &[i16]) -> Vec<u8> {
    let figures = [&[constant], factors].concat();
    let figures: Vec<u8> = figures.into_iter().flat_map(i16::to_be_bytes).collect();
    field(0x24, &[&[result, name], &figures[..]].concat())
}

/// A field 27.
pub fn card(kinds: &[u8]) -> Vec<u8> {
    field(0x27, kinds)
}

/// A translation from its parts.
pub fn translation(source: &[u8], target: &[u8], body: &[u8]) -> Vec<u8> {
    [field(0x20, source), field(0x21, target), body.to_vec()].concat()
}

/// A pack from its parts.
pub fn pack(languages: &[Vec<u8>], bodies: &[Vec<u8>], term: &[u8]) -> Vec<u8> {
    let languages = languages.iter().map(|language| field(0x30, language));
    let bodies = bodies.iter().map(|body| field(0x31, body));
    languages.chain(bodies).chain([field(0x32, term)]).collect::<Vec<_>>().concat()
}
