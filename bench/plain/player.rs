// The player: kept events by start and arrival, used ids by stream and id.
use crate::records::{Event, LATEST, Refusal};

// The places for events, ids and dispatches; larger ones to see how costs grow.
const EVENTS: usize = if cfg!(wide) { 256 } else { 64 };
const IDS: usize = if cfg!(wide) { 1024 } else { 256 };
const DISPATCHES: usize = if cfg!(wide) { 2048 } else { 256 };

#[derive(Clone, Copy, PartialEq)]
pub enum Mode {
    Off,
    OnReceive,
    OnStart,
}

#[derive(Clone, Copy)]
pub struct Dispatch {
    pub position: u64,
    pub mode: Mode,
    pub stream: u8,
    pub event: Event,
}

pub struct Player {
    pub playhead: u64,
    pub told: Vec<Dispatch>,
    modes: Vec<Mode>,
    kept: Vec<(u8, Event)>,
    kept_ids: usize,
    used: Vec<(u8, u32)>,
}

fn refuse<T>(number: u8) -> Result<T, Refusal> {
    Err(Refusal::Number(number))
}

impl Player {
    pub fn new(streams: usize) -> Self {
        Player {
            playhead: 0,
            told: Vec::with_capacity(DISPATCHES),
            modes: vec![Mode::Off; streams],
            kept: Vec::with_capacity(EVENTS),
            kept_ids: 0,
            used: Vec::with_capacity(IDS),
        }
    }

    pub fn kept_count(&self) -> usize {
        self.kept.len()
    }

    fn free(&self) -> usize {
        DISPATCHES - self.told.len()
    }

    pub fn follow(&mut self, stream: u8, mode: u8) -> Result<(), Refusal> {
        let Some(now) = self.modes.get_mut(usize::from(stream)) else {
            return refuse(16);
        };
        let mode = match mode {
            1 => Mode::OnReceive,
            2 => Mode::OnStart,
            _ => return refuse(17),
        };
        if *now != Mode::Off {
            return refuse(18);
        }
        *now = mode;
        Ok(())
    }

    pub fn leave(&mut self, stream: u8) -> Result<(), Refusal> {
        let Some(now) = self.modes.get_mut(usize::from(stream)) else {
            return refuse(16);
        };
        if *now == Mode::Off {
            return refuse(19);
        }
        *now = Mode::Off;
        self.used.retain(|&(s, _)| s != stream);
        self.retain(|s, _| s != stream);
        Ok(())
    }

    pub fn evict(&mut self, from: u64, to: u64) -> Result<(), Refusal> {
        if from > to {
            return refuse(25);
        }
        self.retain(|_, event| !(from..to).contains(&event.arrival));
        Ok(())
    }

    fn retain(&mut self, stays: impl Fn(u8, &Event) -> bool) {
        self.kept.retain(|(stream, event)| stays(*stream, event));
        self.kept_ids = self.kept.iter().filter(|(_, event)| event.id.is_some()).count();
    }

    fn tell(&mut self, position: u64, stream: u8, mode: Mode, event: Event) {
        self.told.push(Dispatch { position, mode, stream, event });
    }

    fn use_id(&mut self, stream: u8, id: Option<u32>) {
        if let Some(id) = id
            && let Err(place) = self.used.binary_search(&(stream, id))
        {
            self.used.insert(place, (stream, id));
        }
    }

    pub fn play(&mut self, to: u64) -> Result<(), Refusal> {
        if to > LATEST {
            return refuse(20);
        }
        if to < self.playhead {
            return refuse(21);
        }
        let from = self.kept.partition_point(|(_, event)| event.start <= self.playhead);
        let mut end = self.kept.partition_point(|(_, event)| event.start <= to);
        let mut reach = to;
        if end - from > self.free() {
            let late = self.kept[from + self.free()].1.start;
            end = self.kept.partition_point(|(_, event)| event.start < late);
            reach = late - 1;
        }
        for i in from..end {
            let (stream, event) = self.kept[i];
            self.use_id(stream, event.id);
            self.kept_ids -= usize::from(event.id.is_some());
            self.tell(event.start, stream, Mode::OnStart, event);
        }
        self.kept.drain(from..end);
        self.playhead = reach;
        Ok(())
    }

    pub fn seek(&mut self, to: u64) -> Result<(), Refusal> {
        if to > LATEST {
            return refuse(20);
        }
        let ahead = self.kept.partition_point(|(_, event)| event.start <= to);
        let active = |event: &Event| event.is_active(to);
        let count = self.kept[..ahead].iter().filter(|(_, event)| active(event)).count();
        if count > self.free() {
            return refuse(24);
        }
        if count > 0 {
            for i in 0..ahead {
                let (stream, event) = self.kept[i];
                if active(&event) {
                    self.use_id(stream, event.id);
                    self.tell(to, stream, Mode::OnStart, event);
                }
            }
            self.retain(|_, event| !active(event));
        }
        self.playhead = to;
        Ok(())
    }

    fn is_known(&self, stream: u8, id: u32) -> bool {
        self.used.binary_search(&(stream, id)).is_ok()
            || self.kept.iter().any(|(s, event)| *s == stream && event.id == Some(id))
    }

    pub fn draw(&mut self, event: Event) -> Result<(), Refusal> {
        let Some(stream) = event.stream else {
            return Ok(());
        };
        match self.modes.get(usize::from(stream)) {
            None | Some(Mode::Off) => return Ok(()),
            Some(Mode::OnReceive) => return self.dispatch(stream, Mode::OnReceive, event),
            Some(Mode::OnStart) => {}
        }
        if event.is_over(self.playhead) {
            return Ok(());
        }
        if event.id.is_some_and(|id| self.is_known(stream, id)) {
            return Ok(());
        }
        let no_id_place = event.id.is_some() && self.used.len() + self.kept_ids == IDS;
        if event.start <= self.playhead {
            if no_id_place {
                return refuse(23);
            }
            self.dispatch(stream, Mode::OnStart, event)?;
            self.use_id(stream, event.id);
            return Ok(());
        }
        if self.kept.len() == EVENTS {
            return refuse(22);
        }
        if no_id_place {
            return refuse(23);
        }
        let key = (event.start, event.arrival);
        let place = self.kept.partition_point(|(_, other)| (other.start, other.arrival) <= key);
        self.kept.insert(place, (stream, event));
        self.kept_ids += usize::from(event.id.is_some());
        Ok(())
    }

    fn dispatch(&mut self, stream: u8, mode: Mode, event: Event) -> Result<(), Refusal> {
        if self.free() == 0 {
            return refuse(24);
        }
        self.tell(self.playhead, stream, mode, event);
        Ok(())
    }
}
