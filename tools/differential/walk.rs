//! The walk of a block's records: question 13, and 15 for the room of the key.
use crate::blocks::{self, Entry};
use crate::buffer::Buffer;
use crate::case::{Answer, Case};
use crate::damage::damage;
use crate::numbers::{NO_NUMBER, number};
use crate::ours;
use crate::rng::Rng;
use crate::run::Run;
use crate::{Layer, samples};
use oracle::block::{self, Meta};

pub const LAYER: Layer = Layer { name: "walk", kinds: &["walk", "record"], ask, fixed, round };

/// Kind, sequence, key length, value place, value length, next position.
type Record = [u64; 6];

const BEFORE: Record = [11, 22, 33, 44, 55, 66];

fn ask(case: &Case) -> Option<(Answer, Answer)> {
    let meta = block::verify(&case.bytes[0]).ok()?;
    match case.kind {
        "walk" => Some((our_walk(case, meta), rust_walk(case, meta))),
        _ if case.bytes[1].len() as u64 > case.numbers[1] => None,
        _ => Some((our_step(case, meta), rust_step(case, meta))),
    }
}

/// Numbers: room and shift. The answer holds each record, its key, and the record as left at the end.
fn our_walk(case: &Case, meta: Meta) -> Answer {
    let raw = Buffer::input(&case.bytes[0], case.numbers[1]);
    let mut scratch = Buffer::new(case.numbers[0] as usize, b"", case.numbers[1]);
    let (mut record, mut pos, mut key_len, end) = (BEFORE, 0, 0, meta[0] as u64);
    let mut answer = Answer::default();
    while answer.number == 0 && pos < end {
        answer.number = ours::step(raw.part(), end, pos, key_len, scratch.part_mut(), &mut record);
        if answer.number == 0 {
            key_len = record[2].min(case.numbers[0]);
            answer.words.extend(record);
            answer.bytes.extend(&scratch.part()[..key_len as usize]);
            // A step that does not go on would never end.
            answer.number = if record[5] <= pos { NO_NUMBER } else { 0 };
            pos = record[5];
        }
    }
    answer.words.extend(record);
    scratch.guarded(answer)
}

fn rust_walk(case: &Case, meta: Meta) -> Answer {
    let (records, end) = block::walk(&case.bytes[0], meta);
    let mut answer = Answer::default();
    let mut last = BEFORE;
    for r in records {
        if r.key.len() as u64 > case.numbers[0] {
            answer.number = 15;
            break;
        }
        let numbers = [r.key.len(), r.place, r.length, r.place + r.length].map(|n| n as u64);
        last = [u64::from(r.kind), r.sequence, numbers[0], numbers[1], numbers[2], numbers[3]];
        answer.words.extend(last);
        answer.bytes.extend(r.key);
    }
    if answer.number == 0 {
        answer.number = end.map_or_else(|error| number(&error), |()| 0);
    }
    answer.words.extend(last);
    answer
}

/// Numbers: position, room and shift. The second part of bytes is the previous key.
fn our_step(case: &Case, meta: Meta) -> Answer {
    let (raw, key) = (Buffer::input(&case.bytes[0], case.numbers[2]), &case.bytes[1]);
    let mut scratch = Buffer::new(case.numbers[1] as usize, key, case.numbers[2]);
    let mut record = BEFORE;
    let (end, pos, key_len) = (meta[0] as u64, case.numbers[0], key.len() as u64);
    let number = ours::step(raw.part(), end, pos, key_len, scratch.part_mut(), &mut record);
    let mut answer = Answer { number, ..Answer::words(record.to_vec()) };
    if number == 0 {
        let key_len = record[2].min(case.numbers[1]) as usize;
        answer.bytes.extend(&scratch.part()[..key_len]);
    }
    scratch.guarded(answer)
}

fn rust_step(case: &Case, meta: Meta) -> Answer {
    let (raw, key, pos) = (&case.bytes[0], &case.bytes[1], case.numbers[0] as usize);
    let refused = |number| Answer { number, ..Answer::words(BEFORE.to_vec()) };
    let header = match block::header(raw, meta, pos) {
        Ok(header) => header,
        Err(error) => return refused(number(&error)),
    };
    let key_len = header.shared + header.suffix;
    if header.shared > key.len() {
        return refused(13);
    }
    if key_len as u64 > case.numbers[1] {
        return refused(15);
    }
    let place = pos + 21 + header.suffix;
    let numbers = [key_len, place, header.length, place + header.length].map(|n| n as u64);
    let mut words = vec![u64::from(header.kind), header.sequence];
    words.extend(numbers);
    Answer { bytes: [&key[..header.shared], &raw[pos + 21..place]].concat(), ..Answer::words(words) }
}

fn walks(run: &mut Run, raw: &[u8], rooms: &[usize], shift: u64) {
    for &room in rooms {
        run.compare(ask, Case::new("walk", &[room as u64, shift], &[raw]));
    }
}

/// Blocks of one and two entries with each header byte changed to several values, sealed again.
fn fixed(run: &mut Run) {
    let entry = |key: &[u8], value: &[u8], kind| Entry { kind, key: key.to_vec(), value: value.to_vec(), sequence: 5 };
    let one = blocks::block(&[entry(b"", b"", 1)], 1).raw;
    let two = blocks::block(&[entry(b"ab", b"x", 1), entry(b"abc", b"", 2)], 16).raw;
    for raw in [&one, &two] {
        for at in 0..raw.len() - 4 {
            for value in 0..=255 {
                let mut changed = raw.clone();
                changed[at] = value;
                blocks::seal(&mut changed);
                walks(run, &changed, &[0, 1, 2, 3, 300], 0);
            }
        }
        for pos in (0..80).chain([u64::MAX - 21, u64::MAX - 20, u64::MAX]) {
            for key in [&b""[..], b"a", b"ab", b"abcd"] {
                for room in [4, 5, 40] {
                    run.compare(ask, Case::new("record", &[pos, room, 0], &[raw, key]));
                }
            }
        }
    }
}

fn steps(run: &mut Run, raw: &[u8], starts: &[usize], rng: &mut Rng) {
    for _ in 0..3 {
        let start = rng.pick(starts);
        let pos = if rng.one_in(2) { start } else { rng.between(0, raw.len() + 2) };
        let length = rng.between(0, 30);
        let (key, more) = (rng.bytes(length), rng.pick(&[0, 1, 2, 8, 300]));
        let numbers = [pos as u64, (length + more) as u64, rng.next() % 8];
        run.compare(ask, Case::new("record", &numbers, &[raw, &key]));
    }
}

fn round(run: &mut Run, rng: &mut Rng) {
    for sample in samples(rng) {
        let longest = sample.longest_key;
        let rooms = [longest, longest.saturating_sub(1), rng.between(0, longest + 1), 5000];
        walks(run, &sample.block.raw, &rooms, rng.next() % 8);
        steps(run, &sample.block.raw, &sample.block.starts, rng);
        for _ in 0..6 {
            let raw = damage(&sample.block.raw, &sample.block.starts, rng);
            walks(run, &raw, &[longest, 5000], rng.next() % 8);
            steps(run, &raw, &sample.block.starts, rng);
        }
    }
}
