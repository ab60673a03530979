//! What every writer must do with its output, for the unit tests.

use super::refusal;

/// What stands in the output before a write.
const UNTOUCHED: u8 = 0xAA;
/// More room than any telegram takes.
const ROOMY: usize = 300;

/// The bytes are stored at the front of an output that has room for them, and
/// nothing is stored in one that has not.
pub fn written(bytes: &[u8], write: impl Fn(&mut [u8]) -> Result<usize, u8>) {
    for room in [bytes.len(), ROOMY.max(bytes.len() + 1)] {
        let mut out = vec![UNTOUCHED; room];
        assert_eq!(write(&mut out), Ok(bytes.len()), "{bytes:02X?}");
        let (front, rest) = out.split_at(bytes.len());
        assert_eq!(front, bytes);
        assert!(rest.iter().all(|byte| *byte == UNTOUCHED));
    }
    let rooms = [0, bytes.len() / 2, bytes.len().saturating_sub(1)];
    // No bytes fit into any output.
    for room in rooms.into_iter().filter(|room| *room < bytes.len()) {
        refused_within(room, refusal::OUTPUT, &write);
    }
}

/// The number comes before that of too small an output, and nothing is stored.
pub fn refused(number: u8, write: impl Fn(&mut [u8]) -> Result<usize, u8>) {
    for room in [0, ROOMY] {
        refused_within(room, number, &write);
    }
}

fn refused_within(room: usize, number: u8, write: impl Fn(&mut [u8]) -> Result<usize, u8>) {
    let mut out = vec![UNTOUCHED; room];
    assert_eq!(write(&mut out), Err(number), "room for {room}");
    assert!(out.iter().all(|byte| *byte == UNTOUCHED));
}
