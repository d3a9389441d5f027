//! The frames of a tape, and of a line that is read piece by piece.

use crate::exported;

/// The bytes that start and end a frame.
pub const START: u8 = 2;
pub const END: u8 = 3;

/// The bodies of the frames of a tape, one after another; all other bytes are dropped.
pub fn frames(tape: &[u8]) -> Frames<'_> {
    Frames { tape, place: 0, dropped: 0 }
}

/// A tape, frame by frame. At any time the frames given, with their marks, the dropped bytes and the tail are the whole tape.
///
/// ```
/// let mut frames = rhoikandra::frames(b"noise\x02ON\x03\x02unfin");
/// assert_eq!(frames.by_ref().collect::<Vec<_>>(), [b"ON"]);
/// assert_eq!((frames.place(), frames.dropped(), frames.tail()), (9, 5, &b"\x02unfin"[..]));
/// ```
#[derive(Clone, Debug)]
pub struct Frames<'a> {
    tape: &'a [u8],
    place: usize,
    dropped: usize,
}

impl<'a> Frames<'a> {
    /// The place reached: the bytes before it are done with, given as a frame or dropped.
    pub fn place(&self) -> usize {
        self.place
    }

    /// How many of the bytes before the place reached were dropped.
    pub fn dropped(&self) -> usize {
        self.dropped
    }

    /// The bytes from the place reached on. Once there is no frame any more, they are the begun frame at the tape's end, if
    /// there is one, and must stand before what is read next.
    pub fn tail(&self) -> &'a [u8] {
        &self.tape[self.place..]
    }

    /// Where the frame begins that the bytes from the place reached on leave unfinished, or else the tape's end.
    fn unfinished(&self) -> usize {
        let begun = self.tail().iter().rposition(|byte| *byte == START);
        begun.map_or(self.tape.len(), |start| self.place + start)
    }
}

impl<'a> Iterator for Frames<'a> {
    type Item = &'a [u8];

    fn next(&mut self) -> Option<&'a [u8]> {
        let mut found = [0; 4];
        let dropped = unsafe {
            exported::rhoikandra_frame(
                self.tape.as_ptr(),
                self.tape.len(),
                self.place,
                found.as_mut_ptr(),
                found.len(),
            )
        };
        if let [1, start, end, next] = found.map(|number| number as usize) {
            self.dropped += dropped;
            self.place = next;
            return Some(&self.tape[start..end]);
        }
        let unfinished = self.unfinished();
        self.dropped += unfinished - self.place;
        self.place = unfinished;
        None
    }
}

/// A line that is read piece by piece, wherever the pieces end: a begun frame is kept until its end is read.
///
/// ```
/// let mut line = rhoikandra::Line::default();
/// line.read(b"\x02O");
/// assert_eq!(line.next_body(), None);
/// line.read(b"N\x03\x02C");
/// assert_eq!(line.next_body(), Some(&b"ON"[..]));
/// assert_eq!(line.next_body(), None);
/// assert_eq!(line.kept(), b"\x02C");
/// ```
#[derive(Clone, Debug, Default)]
pub struct Line {
    bytes: Vec<u8>,
    place: usize,
    dropped: usize,
}

impl Line {
    /// Takes what was read.
    pub fn read(&mut self, bytes: &[u8]) {
        self.bytes.drain(..self.place);
        self.place = 0;
        self.bytes.extend_from_slice(bytes);
    }

    /// The body of the next frame that was read to its end.
    pub fn next_body(&mut self) -> Option<&[u8]> {
        let mut frames = Frames { tape: &self.bytes, place: self.place, dropped: self.dropped };
        let body = frames.next();
        (self.place, self.dropped) = (frames.place, frames.dropped);
        body
    }

    /// How many bytes were dropped so far.
    pub fn dropped(&self) -> usize {
        self.dropped
    }

    /// The bytes that are not done with. A sender that begins a frame and never ends it makes them grow: where they are longer
    /// than the frame of any message, [`crate::message::FRAME_MAX`], the frame will be refused with 10.
    pub fn kept(&self) -> &[u8] {
        &self.bytes[self.place..]
    }
}
