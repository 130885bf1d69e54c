// The events of a sheet.
use crate::base64;
use crate::records::{Catalogue, Cursor, Event, Fault, is_timescale, time};

struct Stream {
    ticks: u32,
    offset: u64,
    number: Option<u8>,
}

pub struct Sheet<'a> {
    cursor: Cursor<'a>,
    catalogue: &'a Catalogue<'a>,
    stream: Option<Stream>,
}

impl<'a> Sheet<'a> {
    pub fn new(bytes: &'a [u8], catalogue: &'a Catalogue<'a>) -> Self {
        Sheet { cursor: Cursor { rest: bytes }, catalogue, stream: None }
    }

    // Reads an `ES` behind its mark; none where it is cut.
    fn opening(&mut self) -> Option<Result<(), Fault>> {
        let ticks = self.cursor.u32()?;
        let offset = self.cursor.u64()?;
        let scheme = self.cursor.u8()?;
        let value = self.cursor.u8()?;
        let scheme = self.cursor.bytes(scheme.into())?;
        let value = self.cursor.bytes(value.into())?;
        if !is_timescale(ticks) {
            return Some(Err(6));
        }
        let number = self.catalogue.find(scheme, value);
        self.stream = Some(Stream { ticks, offset, number });
        Some(Ok(()))
    }

    // Reads an `EV` behind its mark; none where it is cut.
    fn event(&mut self) -> Option<Result<Event, Fault>> {
        let flags = self.cursor.u8()?;
        let ticks = self.cursor.u64()?;
        let duration = self.cursor.u32()?;
        let id = self.cursor.u32()?;
        let length = self.cursor.u16()?;
        let message = self.cursor.bytes(length.into())?;
        Some(self.judged(flags, ticks, duration, id, message))
    }

    fn judged(
        &self,
        flags: u8,
        at: u64,
        duration: u32,
        id: u32,
        message: &[u8],
    ) -> Result<Event, Fault> {
        let stream = self.stream.as_ref().ok_or(12)?;
        let timed = flags & 1 != 0;
        let named = flags & 2 != 0;
        if flags > 7 || !timed && duration != 0 || !named && id != 0 {
            return Err(13);
        }
        let since = at.checked_sub(stream.offset).ok_or(9)?;
        let start = time(since, stream.ticks).ok_or(10)?;
        let duration = match timed {
            true => Some(time(duration.into(), stream.ticks).ok_or(10)?),
            false => None,
        };
        if flags & 4 != 0 && !base64::is_text(message) {
            return Err(14);
        }
        Ok(Event {
            stream: stream.number,
            id: named.then_some(id),
            start,
            duration,
            arrival: 0,
            length: message.len() as u32,
        })
    }
}

impl Iterator for Sheet<'_> {
    type Item = Result<Event, Fault>;

    fn next(&mut self) -> Option<Self::Item> {
        while !self.cursor.rest.is_empty() {
            match self.cursor.mark() {
                Some([b'E', b'S']) => match self.opening() {
                    Some(Ok(())) => {}
                    Some(Err(fault)) => return Some(Err(fault)),
                    None => return Some(Err(11)),
                },
                Some([b'E', b'V']) => return Some(self.event().unwrap_or(Err(11))),
                _ => return Some(Err(11)),
            }
        }
        None
    }
}
