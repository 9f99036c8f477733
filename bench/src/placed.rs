//! Buffers that lie alike within their pages, whichever version they are lent to.

/// A page of memory.
pub const PAGE: usize = 4096;

/// Bytes at a certain place of a page.
pub struct Placed {
    room: Vec<u8>,
    start: usize,
    length: usize,
}

impl Placed {
    /// A copy of the bytes whose address leaves the same remainder as this place.
    pub fn at(place: usize, bytes: &[u8]) -> Placed {
        let mut room = vec![0; bytes.len() + PAGE];
        let start = (place + PAGE - room.as_ptr() as usize % PAGE) % PAGE;
        room[start..start + bytes.len()].copy_from_slice(bytes);
        Placed { room, start, length: bytes.len() }
    }

    /// The bytes at their place.
    #[inline]
    pub fn bytes(&mut self) -> &mut [u8] {
        &mut self.room[self.start..self.start + self.length]
    }
}
