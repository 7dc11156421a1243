//! What an event says.

/// One of five things; two carry a record.
#[derive(Clone, Copy, Debug, PartialEq)]
pub enum Event {
    Spawn,
    End,
    Sync,
    Read(usize),
    Write(usize),
}

/// Decodes four bytes; none if they are no event. An event that has nothing but its kind is told first: that leaves few branches to
/// be guessed wrong, both where reads and writes are treated alike and where they are not.
pub fn decode(bytes: [u8; 4]) -> Option<Event> {
    let event = u32::from_le_bytes(bytes);
    let record = (event >> 16) as usize;
    match event {
        1 => Some(Event::Spawn),
        2 => Some(Event::End),
        3 => Some(Event::Sync),
        _ => match event & 0xFFFF {
            4 => Some(Event::Read(record)),
            5 => Some(Event::Write(record)),
            _ => None,
        },
    }
}

#[cfg(test)]
mod tests {
    use super::*;

    #[test]
    fn five_kinds_decode() {
        assert_eq!([1, 2, 3].map(|kind| decode([kind, 0, 0, 0])), [Event::Spawn, Event::End, Event::Sync].map(Some));
        assert_eq!(decode([4, 0, 255, 15]), Some(Event::Read(4095)));
        assert_eq!(decode([5, 0, 0, 1]), Some(Event::Write(256)));
    }

    #[test]
    fn other_bytes_are_no_event() {
        assert!((0..=255).all(|kind| (1..=5).contains(&kind) == decode([kind, 0, 0, 0]).is_some()));
        assert!((0..=255).all(|kind| decode([kind, 1, 0, 0]).is_none()));
        assert!((1..=3).all(|kind| decode([kind, 0, 1, 0]).is_none() && decode([kind, 0, 0, 1]).is_none()));
    }
}
