//! Event records.

/// An event: opens or closes an element of this name number.
#[derive(Clone, Copy, Debug, PartialEq, Eq)]
pub enum Event {
    Open(u16),
    Close(u16),
}

/// The event a record stands for; nothing if it is "not 8 bytes, or a bad record".
pub fn event(bytes: &[u8]) -> Option<Event> {
    let &[kind, 0, high, low, 0, 0, 0, 0] = bytes else { return None };
    let name = u16::from_be_bytes([high, low]);
    match (kind, name) {
        (_, 0) => None,
        (1, _) => Some(Event::Open(name)),
        (2, _) => Some(Event::Close(name)),
        _ => None,
    }
}

/// The record of an event.
pub fn record(event: Event) -> [u8; 8] {
    let (kind, name) = match event {
        Event::Open(name) => (1, name),
        Event::Close(name) => (2, name),
    };
    let [high, low] = name.to_be_bytes();
    [kind, 0, high, low, 0, 0, 0, 0]
}

/// A file's records in order. "Leftover bytes under 8 are a bad record", so they stand last as one record.
pub fn split(file: &[u8]) -> impl Iterator<Item = &[u8]> {
    file.chunks(8)
}
