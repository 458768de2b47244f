//! The functions of our library, over slices. A function that is not in the archive may not be called.
#![allow(dead_code)]

mod c {
    pub type Table = [[u32; 256]; 8];
    pub type Record = [u64; 16];
    /// The five numbers of `struct kiban_block_record`, which has their layout.
    pub type BlockRecord = [u64; 5];

    unsafe extern "C" {
        pub fn kiban_crc32(data: *const u8, data_len: usize) -> u32;
        pub fn kiban_open(
            section: *const u8,
            section_len: usize,
            data: *const u8,
            data_len: usize,
            blocks: *const u64,
            blocks_len: usize,
            scratch: *mut u8,
            scratch_len: usize,
            record: *mut Record,
        ) -> u64;
        pub fn kiban_open_packed(
            section: *const u8,
            section_len: usize,
            data: *const u8,
            data_len: usize,
            blocks: *const u64,
            blocks_len: usize,
            scratch: *mut u8,
            scratch_len: usize,
            output: *mut u8,
            output_len: usize,
            record: *mut Record,
            length: *mut u64,
        ) -> u64;
        pub fn kiban_lookup(
            section: *const u8,
            section_len: usize,
            record: *const Record,
            key: *const u8,
            key_len: usize,
            limit: u64,
            answer: *mut [u64; 6],
        ) -> u64;
        pub fn kiban_value(data: *const u8, data_len: usize, offset: u64, length: u64) -> u64;
        pub fn kiban_span(
            section: *const u8,
            section_len: usize,
            record: *const Record,
            first: u64,
            count: u64,
            limit: u64,
            pairs: *mut u64,
            pairs_len: usize,
            found: *mut u64,
        ) -> u64;
        pub fn kiban_fill_blocks(
            data: *const u8,
            data_len: usize,
            blocks: *const u64,
            blocks_len: usize,
            records: *mut BlockRecord,
            records_len: usize,
            count: *mut u64,
        ) -> u64;
        pub fn kiban_find_block(records: *const BlockRecord, records_len: usize, offset: u64) -> u64;
        pub fn kiban_add(
            area: *mut u8,
            area_len: usize,
            builder: *mut Record,
            tombstone: u64,
            key: *const u8,
            key_len: usize,
            value: *const u8,
            value_len: usize,
            sequence: u64,
            new_key: u64,
            offset: u64,
        ) -> u64;
        pub fn kiban_size(builder: *const Record, prefix: u64, size: *mut u64) -> u64;
        pub fn kiban_write(
            area: *const u8,
            area_len: usize,
            builder: *const Record,
            prefix: u64,
            scratch64: *mut u64,
            scratch64_len: usize,
            scratch32: *mut u32,
            scratch32_len: usize,
            output: *mut u8,
            output_len: usize,
            length: *mut u64,
        ) -> u64;

        pub fn probe_crc32_update(state: u32, data: *const u8, data_len: usize) -> u32;
        pub fn probe_crc32_lent(table: *const Table, data: *const u8, data_len: usize) -> u32;
        pub fn probe_hash(key: *const u8, key_len: usize, seed: u64) -> u64;
        pub fn probe_verify(raw: *const u8, raw_len: usize, meta: *mut [u64; 3]) -> u64;
        pub fn probe_verify_lent(table: *const Table, raw: *const u8, raw_len: usize, meta: *mut [u64; 3]) -> u64;
        pub fn probe_record(
            raw: *const u8,
            raw_len: usize,
            entries_end: u64,
            pos: u64,
            key_len: u64,
            scratch: *mut u8,
            scratch_len: usize,
            record: *mut [u64; 6],
        ) -> u64;
        pub fn probe_trailer(section: *const u8, section_len: usize) -> u64;
        pub fn probe_section_len(totals: *const [u64; 9], prefix: u64) -> u64;
        pub fn probe_construct(
            area: *const u8,
            area_len: usize,
            count: u64,
            hashes: *mut u64,
            hashes_len: usize,
            scratch: *mut u32,
            scratch_len: usize,
            seed: *mut u64,
        ) -> u64;

        pub safe fn probe_fingerprint(h: u64) -> u64;
        pub safe fn probe_bucket(h: u64, count: u64) -> u64;
        pub safe fn probe_position(h: u64, pilot: u64, n: u64) -> u64;
        pub safe fn probe_slot(h: u64, pilot: u64, n: u64) -> u64;
        pub safe fn probe_width(max: u64) -> u64;
    }
}

pub use crate::blocks::Offered;
pub use c::{Record, probe_bucket, probe_fingerprint, probe_position, probe_slot, probe_width};

// In all calls below the pointers and lengths are those of live slices and references, and the library
// writes only behind those that are `&mut`.

#[inline(always)]
pub fn crc32(data: &[u8]) -> u32 {
    // SAFETY: as above.
    unsafe { c::kiban_crc32(data.as_ptr(), data.len()) }
}

#[inline(always)]
pub fn crc32_lent(table: &c::Table, data: &[u8]) -> u32 {
    // SAFETY: as above.
    unsafe { c::probe_crc32_lent(table, data.as_ptr(), data.len()) }
}

#[inline(always)]
pub fn crc32_update(state: u32, data: &[u8]) -> u32 {
    // SAFETY: as above.
    unsafe { c::probe_crc32_update(state, data.as_ptr(), data.len()) }
}

#[inline(always)]
pub fn hash(key: &[u8], seed: u64) -> u64 {
    // SAFETY: as above.
    unsafe { c::probe_hash(key.as_ptr(), key.len(), seed) }
}

#[inline(always)]
pub fn verify(raw: &[u8], meta: &mut [u64; 3]) -> u64 {
    // SAFETY: as above.
    unsafe { c::probe_verify(raw.as_ptr(), raw.len(), meta) }
}

#[inline(always)]
pub fn verify_lent(table: &c::Table, raw: &[u8], meta: &mut [u64; 3]) -> u64 {
    // SAFETY: as above.
    unsafe { c::probe_verify_lent(table, raw.as_ptr(), raw.len(), meta) }
}

/// The step at `pos` of a block's walk, whose previous key is the first `key_len` bytes of the scratch.
#[inline(always)]
pub fn step(raw: &[u8], entries_end: u64, pos: u64, key_len: u64, scratch: &mut [u8], record: &mut [u64; 6]) -> u64 {
    let (at, room) = (scratch.as_mut_ptr(), scratch.len());
    // SAFETY: as above.
    unsafe { c::probe_record(raw.as_ptr(), raw.len(), entries_end, pos, key_len, at, room, record) }
}

#[inline(always)]
pub fn trailer(section: &[u8]) -> u64 {
    // SAFETY: as above.
    unsafe { c::probe_trailer(section.as_ptr(), section.len()) }
}

#[inline(always)]
pub fn section_len(totals: &[u64; 9], prefix: u64) -> u64 {
    // SAFETY: as above.
    unsafe { c::probe_section_len(totals, prefix) }
}

#[inline(always)]
pub fn construct(area: &[u8], count: u64, hashes: &mut [u64], scratch: &mut [u32], seed: &mut u64) -> u64 {
    // SAFETY: as above.
    unsafe {
        c::probe_construct(
            area.as_ptr(),
            area.len(),
            count,
            hashes.as_mut_ptr(),
            hashes.len(),
            scratch.as_mut_ptr(),
            scratch.len(),
            seed,
        )
    }
}

/// The pilots and the slots that construction of n keys leaves in its scratch.
pub fn placed(scratch: &[u32], n: usize) -> (&[u32], &[u32]) {
    let buckets = n.div_ceil(2);
    scratch[2 * buckets + 5 + 2 * n..][..buckets + n].split_at(buckets)
}

#[inline(always)]
pub fn open(section: &[u8], data: &[u8], list: &[u64], scratch: &mut [u8], record: &mut Record) -> u64 {
    // SAFETY: as above.
    unsafe {
        c::kiban_open(
            section.as_ptr(),
            section.len(),
            data.as_ptr(),
            data.len(),
            list.as_ptr(),
            list.len(),
            scratch.as_mut_ptr(),
            scratch.len(),
            record,
        )
    }
}

#[inline(always)]
pub fn open_packed(
    section: &[u8],
    data: &[u8],
    list: &[u64],
    scratch: &mut [u8],
    output: &mut [u8],
    record: &mut Record,
    length: &mut u64,
) -> u64 {
    // SAFETY: as above.
    unsafe {
        c::kiban_open_packed(
            section.as_ptr(),
            section.len(),
            data.as_ptr(),
            data.len(),
            list.as_ptr(),
            list.len(),
            scratch.as_mut_ptr(),
            scratch.len(),
            output.as_mut_ptr(),
            output.len(),
            record,
            length,
        )
    }
}

#[inline(always)]
pub fn lookup(section: &[u8], record: &Record, key: &[u8], limit: u64, answer: &mut [u64; 6]) -> u64 {
    let (at, length) = (section.as_ptr(), section.len());
    // SAFETY: as above.
    unsafe { c::kiban_lookup(at, length, record, key.as_ptr(), key.len(), limit, answer) }
}

#[inline(always)]
pub fn value(data: &[u8], offset: u64, length: u64) -> u64 {
    // SAFETY: as above.
    unsafe { c::kiban_value(data.as_ptr(), data.len(), offset, length) }
}

/// Asked: first, count and limit.
#[inline(always)]
pub fn span(section: &[u8], record: &Record, asked: [u64; 3], pairs: &mut [u64], found: &mut u64) -> u64 {
    let (at, length, places) = (section.as_ptr(), section.len(), pairs.len());
    let [first, count, limit] = asked;
    // SAFETY: as above.
    unsafe { c::kiban_span(at, length, record, first, count, limit, pairs.as_mut_ptr(), places, found) }
}

#[inline(always)]
pub fn fill_blocks(data: &[u8], list: &[u64], records: &mut [c::BlockRecord], count: &mut u64) -> u64 {
    let (at, places) = (records.as_mut_ptr(), records.len());
    // SAFETY: as above.
    unsafe { c::kiban_fill_blocks(data.as_ptr(), data.len(), list.as_ptr(), list.len(), at, places, count) }
}

#[inline(always)]
pub fn find_block(records: &[c::BlockRecord], offset: u64) -> u64 {
    // SAFETY: as above.
    unsafe { c::kiban_find_block(records.as_ptr(), records.len(), offset) }
}

/// An add. Numbers: tombstone, sequence, new, offset.
#[inline(always)]
pub fn add_numbers(area: &mut [u8], builder: &mut Record, key: &[u8], value: &[u8], numbers: [u64; 4]) -> u64 {
    let [tombstone, sequence, new, offset] = numbers;
    // SAFETY: as above.
    unsafe {
        c::kiban_add(
            area.as_mut_ptr(),
            area.len(),
            builder,
            tombstone,
            key.as_ptr(),
            key.len(),
            value.as_ptr(),
            value.len(),
            sequence,
            new,
            offset,
        )
    }
}

#[inline(always)]
pub fn add(area: &mut [u8], builder: &mut Record, offered: Offered) -> u64 {
    let Offered { tombstone, key, value, sequence, new, offset } = offered;
    add_numbers(area, builder, key, value, [tombstone.into(), sequence, new.into(), offset])
}

#[inline(always)]
pub fn size(builder: &Record, prefix: u64, size: &mut u64) -> u64 {
    // SAFETY: as above.
    unsafe { c::kiban_size(builder, prefix, size) }
}

/// The two scratches of writing.
pub struct Scratch {
    pub words: Vec<u64>,
    pub halves: Vec<u32>,
}

#[inline(always)]
pub fn write_lent(
    area: &[u8],
    builder: &Record,
    prefix: u64,
    words: &mut [u64],
    halves: &mut [u32],
    output: &mut [u8],
    length: &mut u64,
) -> u64 {
    // SAFETY: as above.
    unsafe {
        c::kiban_write(
            area.as_ptr(),
            area.len(),
            builder,
            prefix,
            words.as_mut_ptr(),
            words.len(),
            halves.as_mut_ptr(),
            halves.len(),
            output.as_mut_ptr(),
            output.len(),
            length,
        )
    }
}

#[inline(always)]
pub fn write(
    area: &[u8],
    builder: &Record,
    prefix: u64,
    scratch: &mut Scratch,
    output: &mut [u8],
    length: &mut u64,
) -> u64 {
    write_lent(area, builder, prefix, &mut scratch.words, &mut scratch.halves, output, length)
}
