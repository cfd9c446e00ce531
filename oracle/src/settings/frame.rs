//! What the judged program is asked: a list, and how its settings are to be
//! written back. A file has one frame after the other.

/// Longer than any list that can be accepted; buffers have no more room.
pub const MOST_BYTES: usize = 600;

/// Two bytes for the length of the list, one for the number, two for the room.
const HEAD_BYTES: usize = 5;

#[derive(Clone, PartialEq, Eq, Debug)]
pub struct Frame {
    pub list: Vec<u8>,
    /// How many settings are written back.
    pub number: u8,
    /// How many bytes the lent buffer has.
    pub room: usize,
}

pub fn encode(frames: &[Frame]) -> Vec<u8> {
    frames.iter().flat_map(Frame::bytes).collect()
}

impl Frame {
    pub fn bytes(&self) -> Vec<u8> {
        let [length, more_length] = (self.list.len() as u16).to_le_bytes();
        let [room, more_room] = (self.room as u16).to_le_bytes();
        let mut bytes = vec![length, more_length, self.number, room, more_room];
        bytes.extend_from_slice(&self.list);
        bytes
    }

    /// The frame at the front of these bytes; none where they are no frame.
    fn at_front(bytes: &[u8]) -> Option<Frame> {
        let head = bytes.get(..HEAD_BYTES)?;
        let length = usize::from(u16::from_le_bytes([head[0], head[1]]));
        let room = usize::from(u16::from_le_bytes([head[3], head[4]]));
        let list = bytes.get(HEAD_BYTES..HEAD_BYTES + length)?.to_vec();
        Some(Frame { list, number: head[2], room }).filter(|_| length <= MOST_BYTES && room <= MOST_BYTES)
    }
}

/// The frames of a file, or where it has something that is no frame.
pub fn decode(bytes: &[u8]) -> Result<Vec<Frame>, usize> {
    let mut frames = Vec::new();
    let mut place = 0;
    while place < bytes.len() {
        let frame = Frame::at_front(&bytes[place..]).ok_or(place)?;
        place += HEAD_BYTES + frame.list.len();
        frames.push(frame);
    }
    Ok(frames)
}
