//! An input of the fuzzer: the room and the place of a call, in four bytes, and then the capture.

use judge::agree::Room;
use judge::layout::ROW;

/// The bytes before the capture: rows, low byte first, place, numbers left over.
pub const BEFORE: usize = 4;

/// Rows for which just as many are lent as the input takes.
pub const SUFFICIENT: u16 = u16::MAX;

#[derive(Clone, Debug)]
pub struct Input {
    pub rows: u16,
    pub left_over: u8,
    pub place: u8,
    pub capture: Vec<u8>,
}

impl Input {
    pub fn of_frame(frame: Vec<u8>) -> Self {
        Input {
            rows: SUFFICIENT,
            left_over: 0,
            place: 0,
            capture: frame,
        }
    }

    /// Fewer than four bytes stand for an empty capture.
    pub fn from_bytes(data: &[u8]) -> Self {
        let Some((before, capture)) = data.split_at_checked(BEFORE) else {
            return Input::of_frame(Vec::new());
        };
        Input {
            rows: u16::from_le_bytes([before[0], before[1]]),
            place: before[2],
            left_over: before[3],
            capture: capture.to_vec(),
        }
    }

    pub fn to_bytes(&self) -> Vec<u8> {
        let mut data = self.rows.to_le_bytes().to_vec();
        data.extend([self.place, self.left_over]);
        data.extend(&self.capture);
        data
    }

    pub fn place(&self) -> usize {
        self.place.into()
    }

    pub fn room(&self) -> Room {
        let left_over = usize::from(self.left_over) % ROW;
        match self.rows {
            SUFFICIENT => Room::Sufficient { left_over },
            rows => Room::Numbers(ROW * usize::from(rows) + left_over),
        }
    }
}
