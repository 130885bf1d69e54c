// The events of a segment.
use crate::records::{
    Catalogue, Cursor, Event, Fault, LATEST, fraction, is_timescale, time,
};

#[derive(Clone, Copy)]
pub struct Timing {
    arrival: u64,
    inband: u128,
}

impl Timing {
    pub fn new(earliest: u64, offset: u64, ticks: u32, inband: u64, inband_ticks: u32) -> Result<Self, u8> {
        if !is_timescale(ticks) || !is_timescale(inband_ticks) {
            return Err(6);
        }
        let since = earliest.checked_sub(offset).ok_or(9)?;
        let arrival = time(since, ticks).ok_or(10)?;
        Ok(Timing { arrival, inband: fraction(inband, inband_ticks) })
    }
}

pub struct Segment<'a> {
    cursor: Cursor<'a>,
    timing: Timing,
    catalogue: &'a Catalogue<'a>,
}

// The fields of an emsg box.
struct Fields<'a> {
    scheme: &'a [u8],
    value: &'a [u8],
    ticks: u32,
    at: u64,
    duration: u32,
    id: u32,
    message: &'a [u8],
}

impl<'a> Fields<'a> {
    fn version_0(mut body: Cursor<'a>) -> Option<Self> {
        Some(Fields {
            scheme: body.text()?,
            value: body.text()?,
            ticks: body.u32()?,
            at: body.u32()?.into(),
            duration: body.u32()?,
            id: body.u32()?,
            message: body.rest,
        })
    }

    fn version_1(mut body: Cursor<'a>) -> Option<Self> {
        let ticks = body.u32()?;
        let at = body.u64()?;
        let duration = body.u32()?;
        let id = body.u32()?;
        let scheme = body.text()?;
        let value = body.text()?;
        Some(Fields { scheme, value, ticks, at, duration, id, message: body.rest })
    }
}

impl<'a> Segment<'a> {
    pub fn new(bytes: &'a [u8], timing: Timing, catalogue: &'a Catalogue<'a>) -> Self {
        Segment { cursor: Cursor { rest: bytes }, timing, catalogue }
    }

    // Takes the next box, and gives its type and body; none where it does not fit.
    fn take_box(&mut self) -> Option<([u8; 4], &'a [u8])> {
        let all = self.cursor.rest.len() as u64;
        let size = self.cursor.u32()?;
        let kind = self.cursor.u32()?.to_be_bytes();
        let body = match size {
            0 => all - 8,
            1 => self.cursor.u64()?.checked_sub(16)?,
            _ => u64::from(size).checked_sub(8)?,
        };
        Some((kind, self.cursor.bytes(usize::try_from(body).ok()?)?))
    }

    fn event(&self, version: u8, body: &'a [u8]) -> Result<Event, Fault> {
        let body = Cursor { rest: body };
        let fields = match version {
            0 => Fields::version_0(body),
            _ => Fields::version_1(body),
        };
        let fields = fields.ok_or(8)?;
        if !is_timescale(fields.ticks) {
            return Err(6);
        }
        let at = time(fields.at, fields.ticks).ok_or(10)?;
        let duration = match fields.duration {
            u32::MAX => None,
            known => Some(time(known.into(), fields.ticks).ok_or(10)?),
        };
        let start = match version {
            0 => self.timing.arrival + at,
            _ => u128::from(at).checked_sub(self.timing.inband).ok_or(9)? as u64,
        };
        if start > LATEST {
            return Err(10);
        }
        Ok(Event {
            stream: self.catalogue.find(fields.scheme, fields.value),
            id: Some(fields.id),
            start,
            duration,
            arrival: self.timing.arrival,
            length: fields.message.len() as u32,
        })
    }
}

impl Iterator for Segment<'_> {
    type Item = Result<Event, Fault>;

    fn next(&mut self) -> Option<Self::Item> {
        while !self.cursor.rest.is_empty() {
            match self.take_box() {
                None => return Some(Err(7)),
                Some((kind, body)) if kind == *b"emsg" => match body {
                    [version @ 0..=1, _, _, _, rest @ ..] => return Some(self.event(*version, rest)),
                    [_, _, _, _, ..] => {}
                    _ => return Some(Err(8)),
                },
                Some(_) => {}
            }
        }
        None
    }
}
