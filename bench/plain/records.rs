// What the parts share: events, dispatches, refusals, fractions, and reading from the front of bytes.
pub const LATEST: u64 = 4_000_000_000_000;

#[derive(Clone, Copy)]
pub struct Event {
    pub stream: Option<u8>,
    pub id: Option<u32>,
    pub start: u64,
    pub duration: Option<u64>,
    pub arrival: u64,
    pub length: u32,
}

impl Event {
    pub fn is_over(&self, at: u64) -> bool {
        self.duration.is_some_and(|duration| self.start + duration < at)
    }

    pub fn is_active(&self, at: u64) -> bool {
        self.start <= at && !self.is_over(at)
    }
}

// The number of what is wrong with a box or a record.
pub type Fault = u8;

#[derive(Clone, Copy)]
pub enum Refusal {
    Number(u8),
    Fault(Fault),
}

pub fn is_timescale(ticks: u32) -> bool {
    (1..=10_000_000).contains(&ticks)
}

// The whole part of 1000 n / ticks, unless it is past the latest time.
pub fn time(n: u64, ticks: u32) -> Option<u64> {
    let ms = fraction(n, ticks);
    (ms <= u128::from(LATEST)).then_some(ms as u64)
}

pub fn fraction(n: u64, ticks: u32) -> u128 {
    let ticks = u64::from(ticks);
    u128::from(n / ticks) * 1000 + u128::from(n % ticks * 1000 / ticks)
}

// Takes from the front of bytes.
#[derive(Clone, Copy)]
pub struct Cursor<'a> {
    pub rest: &'a [u8],
}

impl<'a> Cursor<'a> {
    pub fn bytes(&mut self, n: usize) -> Option<&'a [u8]> {
        let (front, rest) = self.rest.split_at_checked(n)?;
        self.rest = rest;
        Some(front)
    }

    fn array<const N: usize>(&mut self) -> Option<[u8; N]> {
        let (front, rest) = self.rest.split_first_chunk::<N>()?;
        self.rest = rest;
        Some(*front)
    }

    pub fn u8(&mut self) -> Option<u8> {
        Some(u8::from_be_bytes(self.array()?))
    }

    pub fn u16(&mut self) -> Option<u16> {
        Some(u16::from_be_bytes(self.array()?))
    }

    pub fn u32(&mut self) -> Option<u32> {
        Some(u32::from_be_bytes(self.array()?))
    }

    pub fn u64(&mut self) -> Option<u64> {
        Some(u64::from_be_bytes(self.array()?))
    }

    pub fn mark(&mut self) -> Option<[u8; 2]> {
        self.array()
    }

    pub fn text(&mut self) -> Option<&'a [u8]> {
        let end = self.rest.iter().position(|&b| b == 0)?;
        let text = &self.rest[..end];
        self.rest = &self.rest[end + 1..];
        Some(text)
    }
}

// The streams by their schemes and values.
#[derive(Default)]
pub struct Catalogue<'a> {
    pairs: Vec<(&'a [u8], &'a [u8])>,
}

impl<'a> Catalogue<'a> {
    pub fn len(&self) -> usize {
        self.pairs.len()
    }

    pub fn find(&self, scheme: &[u8], value: &[u8]) -> Option<u8> {
        let n = self.pairs.iter().position(|&(s, v)| s == scheme && v == value)?;
        Some(n as u8)
    }

    // Lists the stream of the record at the cursor.
    pub fn add(&mut self, cursor: &mut Cursor<'a>) -> Result<(), u8> {
        let (scheme, value) = Self::pair(cursor).ok_or(1)?;
        if scheme.is_empty() || scheme.contains(&0) || value.contains(&0) {
            return Err(2);
        }
        if self.find(scheme, value).is_some() {
            return Err(3);
        }
        if self.len() == 32 {
            return Err(4);
        }
        self.pairs.push((scheme, value));
        Ok(())
    }

    fn pair(cursor: &mut Cursor<'a>) -> Option<(&'a [u8], &'a [u8])> {
        cursor.mark()?;
        let scheme = cursor.u8()?;
        let value = cursor.u8()?;
        Some((cursor.bytes(scheme.into())?, cursor.bytes(value.into())?))
    }
}
