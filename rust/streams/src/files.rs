//! Link files, valid and damaged in every field, and calls of the writer.

use crate::call::{Call, LISTING_BYTES};
use crate::dice::Dice;
use crate::hops::{ahead, any_hop, distance, huge_jump, is_hop, LONGEST_HOP};
use crate::random::{draw_settings, spoil_settings};
use crate::scene::Scene;
use crate::touching::far_cell;
use oracle::{
    file_length, in_lorrys_numbers, record, record_bytes, write, Book, Record, Settings,
    LOG_PLACES, MOST_RECORDS, RECORD_BYTES, TAIL_BYTES,
};

/// An endless stream of calls with files: reader, listing and writer.
#[derive(Clone, Debug)]
pub struct Files {
    dice: Dice,
    /// The listing of the file that was just read.
    next: Option<Call>,
}

impl Files {
    pub fn new(seed: u64) -> Files {
        Files {
            dice: Dice::new(seed),
            next: None,
        }
    }
}

impl Iterator for Files {
    type Item = Call;

    fn next(&mut self) -> Option<Call> {
        if self.next.is_some() {
            return self.next.take();
        }
        if self.dice.one_in(4) {
            return Some(write_call(&mut self.dice));
        }
        let mut file = valid_file(&mut self.dice);
        if self.dice.one_in(2) {
            damage(&mut self.dice, &mut file);
        }
        self.next = Some(Call::List {
            file: file.clone(),
            output_bytes: listing_room(&mut self.dice),
        });
        Some(Call::Read { file })
    }
}

/// Room for a listing's text: mostly just enough, sometimes more or too little.
fn listing_room(dice: &mut Dice) -> usize {
    match dice.below(8) {
        0 => dice.pick(&[0, 1, LISTING_BYTES / 2, LISTING_BYTES - 1]),
        1 => LISTING_BYTES + dice.between(1, 40) as usize,
        _ => LISTING_BYTES,
    }
}

/// A file that plays to the end.
pub fn valid_file(dice: &mut Dice) -> Vec<u8> {
    let settings = draw_settings(dice);
    let records = valid_records(dice, settings);
    file_of(settings, &records)
}

/// The bytes of a file, whatever its records are.
pub fn file_of(settings: Settings, records: &[Record]) -> Vec<u8> {
    let bytes: Vec<u8> = records.iter().flat_map(|&of| record_bytes(of)).collect();
    let mut file = vec![0; file_length(records.len())];
    write(settings, &bytes, &mut file).expect("good settings, at most 8,000 records");
    file
}

/// Records that a book with these settings takes. A book is asked; what it
/// refuses is left out.
fn valid_records(dice: &mut Dice, settings: Settings) -> Vec<Record> {
    let wanted = match dice.below(12) {
        0 => 0,
        1 => 1,
        2..=5 => dice.between(2, 30),
        6..=10 => dice.between(31, 1_000),
        _ => MOST_RECORDS as u64,
    };
    let moves = dice.pick(&[1, 3, 10, 40, 200]);
    // Some go round and round.
    let leaps = dice.pick(&[0, 0, 2, 20]);
    let mut scene = match dice.below(4) {
        0 | 1 => Scene::few(dice),
        2 => Scene::All,
        _ => Scene::things(dice),
    };

    let mut book = Book::new();
    book.opening(settings, LOG_PLACES).expect("good settings");
    let mut time = settings.t0;
    // How far the next record is ahead of that.
    let mut ticks = 0;
    let mut records = Vec::new();
    for _ in 0..wanted {
        if dice.one_in(moves) {
            ticks += if leaps > 0 && dice.one_in(leaps) {
                LONGEST_HOP.into()
            } else {
                more_ticks(dice, settings)
            };
            scene.drift(dice);
        }
        let tick = ahead(time, ticks);
        let a = scene.cell(dice);
        let b = scene.beside(dice, a);
        let (a, b) = (
            in_lorrys_numbers(a, settings.mounting),
            in_lorrys_numbers(b, settings.mounting),
        );
        if book.link(tick, a, b, LOG_PLACES).is_ok() {
            (time, ticks) = (tick, 0);
            records.push(Record {
                tick,
                a: a as u16,
                b: b as u16,
            });
        }
    }
    records
}

/// How far the time goes on: a little, about a slide, or some slides.
fn more_ticks(dice: &mut Dice, settings: Settings) -> u128 {
    let b = u64::from(settings.b);
    let more = match dice.below(8) {
        0 => 1,
        1 => dice.below(b),
        2..=5 => b,
        6 => dice.between(1, 4) * b,
        _ => dice.between(1, 3 * u64::from(settings.n)) * b,
    };
    more.into()
}

/// The fields of a file that can be damaged.
#[derive(Clone, Copy, Debug, PartialEq, Eq)]
pub enum Field {
    Length,
    Letters,
    Offset,
    M,
    OffsetAndM,
    Pad,
    N,
    B,
    Mounting,
    T0,
    Tick,
    Cell,
    FullSlide,
    FarLink,
    SelfLink,
    HugeJump,
    AnyByte,
}

/// All of them.
pub const FIELDS: [Field; 17] = [
    Field::Length,
    Field::Letters,
    Field::Offset,
    Field::M,
    Field::OffsetAndM,
    Field::Pad,
    Field::N,
    Field::B,
    Field::Mounting,
    Field::T0,
    Field::Tick,
    Field::Cell,
    Field::FullSlide,
    Field::FarLink,
    Field::SelfLink,
    Field::HugeJump,
    Field::AnyByte,
];

/// Damages one field, sometimes two or three.
pub fn damage(dice: &mut Dice, file: &mut Vec<u8>) {
    let times = dice.pick(&[1, 1, 1, 2, 3]);
    for _ in 0..times {
        let field = dice.pick(&FIELDS);
        if file.len() >= TAIL_BYTES {
            damage_field(dice, file, field);
        }
    }
}

/// Damages one field of a file of at least 24 bytes. A damaged T0, tick or byte
/// may leave the file good; the others are refused, where the field exists, by the
/// reader or in playing. Ticks stay within a hop of those beside them, but for the
/// huge jump, and any byte may be that of a tick or of a cell.
pub fn damage_field(dice: &mut Dice, file: &mut Vec<u8>, field: Field) {
    let settings = file.len() - TAIL_BYTES;
    let trailer = settings + 12;
    let m = (settings / RECORD_BYTES) as u64;
    match field {
        Field::Length => damage_length(dice, file),
        Field::Letters => {
            let byte = trailer + 8 + dice.below(4) as usize;
            file[byte] ^= 1 << dice.below(8);
        }
        Field::Offset => {
            let near = dice.pick(&[8 * m + 8, 8 * m + 1, 8 * m + 24, m, 12]) as u32;
            let any = dice.bits() as u32;
            let value = dice.pick(&[near, any]);
            put(file, trailer, if value == 8 * m as u32 { 4 } else { value });
        }
        Field::M => {
            let near = dice.pick(&[m + 1, m + 8, 8 * m + 8, m + 8_000]) as u32;
            let any = dice.bits() as u32 | 1 << 31;
            put(file, trailer + 4, dice.pick(&[near, any]));
        }
        Field::OffsetAndM => {
            // They agree with each other and not with the length; also where
            // 8m passes 32 bits.
            let wrong = dice.pick(&[m + 1, m + 8, 8_000 - m / 2 + 1, (1 << 29) + m]) as u32;
            let wrong = if u64::from(wrong) == m { 8_001 } else { wrong };
            put(file, trailer, wrong.wrapping_mul(8));
            put(file, trailer + 4, wrong);
        }
        Field::Pad => {
            let byte = settings + 10 + dice.below(2) as usize;
            file[byte] = dice.between(1, 255) as u8;
        }
        Field::N => file[settings + 8] = dice.pick(&[0, 17, 32, 255]),
        Field::B => put(file, settings + 4, 0),
        Field::Mounting => file[settings + 9] = dice.pick(&[0, 3, 255]),
        Field::T0 => {
            let first = if m > 0 {
                record(file, 0).tick
            } else {
                dice.bits() as u32
            };
            // From there the first record lies ahead or back.
            let ticks = distance(first, any_hop(dice, first));
            put(file, settings, first.wrapping_sub(ticks));
        }
        Field::Tick if m > 0 => {
            let place = dice.below(m) as usize;
            let mut tick = any_hop(dice, time_before(file, place));
            while place + 1 < m as usize && !is_hop(tick, record(file, place + 1).tick) {
                tick = any_hop(dice, time_before(file, place));
            }
            put(file, RECORD_BYTES * place, tick);
        }
        Field::Cell if m > 0 => {
            let place = dice.below(m) as usize;
            let any = dice.between(1024, 65_535) as u32;
            let cell = dice.pick(&[1024, 65_535, any]);
            let end = dice.pick(&[4, 6]);
            put_cell(file, RECORD_BYTES * place + end, cell);
        }
        Field::FullSlide if m > 256 => {
            let start = dice.below(m - 256) as usize;
            let first = file[RECORD_BYTES * start..][..RECORD_BYTES].to_vec();
            for place in start..start + 257 {
                file[RECORD_BYTES * place..][..RECORD_BYTES].copy_from_slice(&first);
            }
        }
        Field::FarLink if m > 0 => {
            let place = dice.below(m) as usize;
            let other = far_cell(dice, u32::from(record(file, place).a));
            put_cell(file, RECORD_BYTES * place + 6, other);
        }
        Field::SelfLink if m > 0 => {
            let place = dice.below(m) as usize;
            let same = u32::from(record(file, place).a);
            put_cell(file, RECORD_BYTES * place + 6, same);
        }
        Field::HugeJump if m > 0 => {
            let place = dice.below(m) as usize;
            let tick = huge_jump(dice, time_before(file, place));
            put(file, RECORD_BYTES * place, tick);
        }
        Field::Tick
        | Field::Cell
        | Field::FullSlide
        | Field::FarLink
        | Field::SelfLink
        | Field::HugeJump => {}
        Field::AnyByte => {
            let byte = dice.below(file.len() as u64) as usize;
            file[byte] ^= 1 << dice.below(8);
        }
    }
}

/// Some bytes more or less, at either end; or a whole record more or less,
/// which the trailer does not know of.
fn damage_length(dice: &mut Dice, file: &mut Vec<u8>) {
    match dice.below(5) {
        0 => {
            let less = dice.between(1, 30).min(file.len() as u64) as usize;
            file.drain(..less);
        }
        1 => {
            let less = dice.between(1, 30).min(file.len() as u64) as usize;
            file.truncate(file.len() - less);
        }
        2 => {
            let more = dice.between(1, 30) as usize;
            file.splice(0..0, vec![0; more]);
        }
        3 => {
            let more = dice.between(1, 30) as usize;
            file.extend(vec![0; more]);
        }
        _ => {
            file.splice(0..0, [0; RECORD_BYTES]);
        }
    }
}

fn put(file: &mut [u8], offset: usize, number: u32) {
    file[offset..offset + 4].copy_from_slice(&number.to_le_bytes());
}

/// A number of two bytes.
fn put_cell(file: &mut [u8], offset: usize, cell: u32) {
    file[offset..offset + 2].copy_from_slice(&(cell as u16).to_le_bytes());
}

/// The book's time when the record at a place is played: the tick of the one
/// before, or T0.
fn time_before(file: &[u8], place: usize) -> u32 {
    if place > 0 {
        return record(file, place - 1).tick;
    }
    let t0 = &file[file.len() - TAIL_BYTES..];
    u32::from_le_bytes([t0[0], t0[1], t0[2], t0[3]])
}

/// A call of the writer: settings, the length of the records and the room,
/// each of them sometimes bad. The records are any bytes.
pub fn write_call(dice: &mut Dice) -> Call {
    let mut settings = draw_settings(dice);
    if dice.one_in(6) {
        settings = spoil_settings(dice, settings);
    }
    let some = dice.below(400) as usize;
    let m = dice.pick(&[0, 1, 2, some, some, some, 7_999, 8_000]);
    let mut length = RECORD_BYTES * m;
    if dice.one_in(6) {
        length = dice.pick(&[length + 1, length + 7, 63_999, 64_001, 64_008, 70_000]);
    }
    let needed = length + TAIL_BYTES;
    let output_bytes = match dice.below(6) {
        0 => dice.pick(&[0, TAIL_BYTES - 1, length, needed - 8, needed - 1]),
        1 => needed + dice.between(1, 40) as usize,
        _ => needed,
    };
    Call::Write {
        settings,
        records: (0..length).map(|_| dice.bits() as u8).collect(),
        output_bytes,
    }
}

/// Files at the ends of the lengths: 0, 1, 23 to 33 bytes, and 64,015 to
/// 64,033, each as good as its length allows: the last bytes are the settings
/// and trailer of a file of that many records.
pub fn edge_files() -> Vec<Vec<u8>> {
    let lengths = (0..=1).chain(23..=33).chain(64_015..=64_033);
    lengths.map(edge_file).collect()
}

fn edge_file(length: usize) -> Vec<u8> {
    let m = length.saturating_sub(TAIL_BYTES) / RECORD_BYTES;
    let mut tail = Vec::new();
    tail.extend(0u32.to_le_bytes());
    tail.extend(1u32.to_le_bytes());
    tail.extend([16, 1, 0, 0]);
    tail.extend((RECORD_BYTES as u32 * m as u32).to_le_bytes());
    tail.extend((m as u32).to_le_bytes());
    tail.extend(*b"KERB");
    let mut file = Vec::new();
    for place in 0..m as u32 {
        // Neighbours in number touch.
        let a = (place % 1023) as u16;
        file.extend(record_bytes(Record {
            tick: place / 256,
            a,
            b: a + 1,
        }));
    }
    // Short files keep the end of the tail, odd lengths have bytes too many.
    file.extend(vec![
        0;
        (length % RECORD_BYTES)
            * usize::from(length > TAIL_BYTES)
    ]);
    let kept = length.min(TAIL_BYTES);
    file.extend(&tail[TAIL_BYTES - kept..]);
    file
}

/// A good file with each of its fields damaged in turn, many times over.
pub fn every_field(seed: u64) -> Vec<(Field, Vec<u8>)> {
    let mut dice = Dice::new(seed);
    let mut files = Vec::new();
    for field in FIELDS {
        for _ in 0..40 {
            let mut file = valid_file(&mut dice);
            damage_field(&mut dice, &mut file, field);
            files.push((field, file));
        }
    }
    files
}
