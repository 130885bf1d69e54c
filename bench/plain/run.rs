// A whole run: the lines of a run sheet.
use crate::player::{Dispatch, Mode, Player};
use crate::records::{Catalogue, Cursor, Event, Fault, LATEST, Refusal};
use crate::segment::{Segment, Timing};
use crate::sheet::Sheet;
use std::io::{self, Write};

enum Command<'a> {
    Follow(u8, u8),
    Leave(u8),
    Play(u64),
    Seek(u64),
    Evict(u64, u64),
    DrawSheet(u64, &'a [u8]),
    DrawSegment(u64, Result<Timing, u8>, &'a [u8]),
}

impl<'a> Command<'a> {
    fn read(cursor: &mut Cursor<'a>) -> Option<Self> {
        Some(match &cursor.mark()? {
            b"FO" => Command::Follow(cursor.u8()?, cursor.u8()?),
            b"LV" => Command::Leave(cursor.u8()?),
            b"PL" => Command::Play(cursor.u64()?),
            b"SK" => Command::Seek(cursor.u64()?),
            b"EX" => Command::Evict(cursor.u64()?, cursor.u64()?),
            b"MP" => {
                let start = cursor.u64()?;
                let length = cursor.u16()?;
                Command::DrawSheet(start, cursor.bytes(length.into())?)
            }
            b"SG" => {
                let start = cursor.u64()?;
                let timing = Timing::new(
                    cursor.u64()?,
                    cursor.u64()?,
                    cursor.u32()?,
                    cursor.u64()?,
                    cursor.u32()?,
                );
                let length = cursor.u16()?;
                Command::DrawSegment(start, timing, cursor.bytes(length.into())?)
            }
            _ => return None,
        })
    }
}

// Moves an event into a period.
fn in_period(start: u64, event: Event) -> Result<Event, Fault> {
    let moved = |time: u64| time.checked_add(start).filter(|&sum| sum <= LATEST).ok_or(10);
    Ok(Event { start: moved(event.start)?, arrival: moved(event.arrival)?, ..event })
}

fn draw_all(
    player: &mut Player,
    start: u64,
    events: impl Iterator<Item = Result<Event, Fault>>,
) -> Result<(), Refusal> {
    for event in events {
        let event = event.and_then(|event| in_period(start, event)).map_err(Refusal::Fault)?;
        player.draw(event)?;
    }
    Ok(())
}

fn perform(command: Command, player: &mut Player, catalogue: &Catalogue) -> Result<(), Refusal> {
    match command {
        Command::Follow(stream, mode) => player.follow(stream, mode),
        Command::Leave(stream) => player.leave(stream),
        Command::Play(to) => player.play(to),
        Command::Seek(to) => player.seek(to),
        Command::Evict(from, to) => player.evict(from, to),
        Command::DrawSheet(start, bytes) => draw_all(player, start, Sheet::new(bytes, catalogue)),
        Command::DrawSegment(start, timing, bytes) => {
            let timing = timing.map_err(Refusal::Number)?;
            draw_all(player, start, Segment::new(bytes, timing, catalogue))
        }
    }
}

fn tell(dispatch: &Dispatch, out: &mut impl Write) -> io::Result<()> {
    let Dispatch { position, mode, stream, event } = dispatch;
    let mark = if *mode == Mode::OnReceive { 'R' } else { 'S' };
    write!(out, "{position} {mark} {stream} ")?;
    match event.id {
        Some(id) => write!(out, "{id}")?,
        None => write!(out, "-")?,
    }
    write!(out, " {} ", event.start)?;
    match event.duration {
        Some(duration) => write!(out, "{duration}")?,
        None => write!(out, "-")?,
    }
    writeln!(out, " {}", event.length)
}

fn refuse(record: u64, refusal: Refusal, out: &mut impl Write) -> io::Result<()> {
    match refusal {
        Refusal::Number(number) => writeln!(out, "refused {record} {number}"),
        Refusal::Fault(fault) => writeln!(out, "refused {record} 26 {fault}"),
    }
}

pub fn run(media: &[u8], out: &mut impl Write) -> io::Result<()> {
    writeln!(out, "cues 1")?;
    let (playhead, kept) = run_records(media, out)?;
    writeln!(out, "playhead {playhead} kept {kept}")
}

fn run_records(media: &[u8], out: &mut impl Write) -> io::Result<(u64, usize)> {
    if media.len() > 65_536 {
        refuse(0, Refusal::Number(5), out)?;
        return Ok((0, 0));
    }
    let mut cursor = Cursor { rest: media };
    let mut catalogue = Catalogue::default();
    let mut record = 0;
    while cursor.rest.starts_with(b"SV") {
        record += 1;
        if let Err(number) = catalogue.add(&mut cursor) {
            refuse(record, Refusal::Number(number), out)?;
            return Ok((0, 0));
        }
    }
    let mut player = Player::new(catalogue.len());
    while !cursor.rest.is_empty() {
        record += 1;
        let Some(command) = Command::read(&mut cursor) else {
            refuse(record, Refusal::Number(30), out)?;
            break;
        };
        let before = player.told.len();
        let done = perform(command, &mut player, &catalogue);
        for dispatch in &player.told[before..] {
            tell(dispatch, out)?;
        }
        if let Err(refusal) = done {
            refuse(record, refusal, out)?;
        }
    }
    Ok((player.playhead, player.kept_count()))
}
