//! The entries of libkiban.a, but for those of block records, with slices and results: every refusal is an `Err` with its number (docs/REFUSALS.md).

/// A refusal's number.
#[derive(Debug, Clone, Copy, PartialEq, Eq)]
pub struct Refused(pub u64);

fn checked(result: u64) -> Result<(), Refused> {
    if result == 0 { Ok(()) } else { Err(Refused(result)) }
}

pub const NO_LIMIT: u64 = u64::MAX;

#[derive(Debug, Clone, Copy, PartialEq, Eq)]
pub enum Kind {
    Put,
    Tombstone,
}

mod sys {
    #[link(name = "kiban", kind = "static")]
    unsafe extern "C" {
        pub fn kiban_crc32(data: *const u8, data_len: usize) -> u32;
        pub fn kiban_open(
            section: *const u8, section_len: usize, data: *const u8, data_len: usize, blocks: *const u64, blocks_len: usize,
            scratch: *mut u8, scratch_len: usize, record: *mut [u64; 16],
        ) -> u64;
        pub fn kiban_open_packed(
            section: *const u8, section_len: usize, data: *const u8, data_len: usize, blocks: *const u64, blocks_len: usize,
            scratch: *mut u8, scratch_len: usize, output: *mut u8, output_len: usize, record: *mut [u64; 16], len: *mut u64,
        ) -> u64;
        pub fn kiban_lookup(
            section: *const u8, section_len: usize, record: *const [u64; 16], key: *const u8, key_len: usize, limit: u64,
            answer: *mut [u64; 6],
        ) -> u64;
        pub fn kiban_value(data: *const u8, data_len: usize, offset: u64, length: u64) -> u64;
        pub fn kiban_span(
            section: *const u8, section_len: usize, record: *const [u64; 16], first: u64, count: u64, limit: u64,
            pairs: *mut u64, pairs_len: usize, found: *mut u64,
        ) -> u64;
        pub fn kiban_add(
            area: *mut u8, area_len: usize, builder: *mut [u64; 16], tombstone: u64, key: *const u8, key_len: usize,
            value: *const u8, value_len: usize, sequence: u64, new_key: u64, offset: u64,
        ) -> u64;
        pub fn kiban_size(builder: *const [u64; 16], prefix: u64, size: *mut u64) -> u64;
        pub fn kiban_write(
            area: *const u8, area_len: usize, builder: *const [u64; 16], prefix: u64, scratch64: *mut u64, scratch64_len: usize,
            scratch32: *mut u32, scratch32_len: usize, output: *mut u8, output_len: usize, len: *mut u64,
        ) -> u64;
    }
}

pub fn crc32(data: &[u8]) -> u32 {
    unsafe { sys::kiban_crc32(data.as_ptr(), data.len()) }
}

/// The data and the block list that a section is opened beside.
#[derive(Clone, Copy)]
pub struct Store<'a> {
    pub data: &'a [u8],
    pub blocks: &'a [u64],
}

/// A section, or its packed form, with the record that its opening gave.
pub struct Index<'a> {
    bytes: std::borrow::Cow<'a, [u8]>,
    record: [u64; 16],
    data: &'a [u8],
}

/// A version of a key, with its value as a part of the data.
#[derive(Debug, PartialEq, Eq)]
pub struct Version<'a> {
    pub kind: Kind,
    pub sequence: u64,
    pub value: &'a [u8],
}

impl<'a> Index<'a> {
    /// Opens a section plain; no key is longer than `longest_key`.
    pub fn open(section: &'a [u8], store: Store<'a>, longest_key: usize) -> Result<Self, Refused> {
        let mut scratch = vec![0; 2 * longest_key];
        let mut record = [0; 16];
        checked(unsafe {
            sys::kiban_open(
                section.as_ptr(), section.len(), store.data.as_ptr(), store.data.len(), store.blocks.as_ptr(), store.blocks.len(),
                scratch.as_mut_ptr(), scratch.len(), &mut record,
            )
        })?;
        Ok(Index { bytes: section.into(), record, data: store.data })
    }

    /// Opens a section and keeps its packed form.
    pub fn open_packed(section: &[u8], store: Store<'a>, longest_key: usize) -> Result<Self, Refused> {
        let mut scratch = vec![0; 2 * longest_key];
        let mut output = vec![0; section.len()];
        let (mut record, mut len) = ([0; 16], 0);
        checked(unsafe {
            sys::kiban_open_packed(
                section.as_ptr(), section.len(), store.data.as_ptr(), store.data.len(), store.blocks.as_ptr(), store.blocks.len(),
                scratch.as_mut_ptr(), scratch.len(), output.as_mut_ptr(), output.len(), &mut record, &mut len,
            )
        })?;
        output.truncate(len as usize);
        Ok(Index { bytes: output.into(), record, data: store.data })
    }

    pub fn bytes(&self) -> &[u8] {
        &self.bytes
    }

    pub fn keys(&self) -> u64 {
        self.record[2]
    }

    /// The key's version of greatest sequence not above the limit.
    pub fn lookup(&self, key: &[u8], limit: u64) -> Result<Option<Version<'a>>, Refused> {
        let mut answer = [0; 6];
        checked(unsafe {
            sys::kiban_lookup(self.bytes.as_ptr(), self.bytes.len(), &self.record, key.as_ptr(), key.len(), limit, &mut answer)
        })?;
        let [found, kind, sequence, offset, length, _] = answer;
        if found == 0 {
            return Ok(None);
        }
        let kind = if kind == 1 { Kind::Put } else { Kind::Tombstone };
        Ok(Some(Version { kind, sequence, value: self.value(offset, length)? }))
    }

    fn value(&self, offset: u64, length: u64) -> Result<&'a [u8], Refused> {
        checked(unsafe { sys::kiban_value(self.data.as_ptr(), self.data.len(), offset, length) })?;
        Ok(&self.data[offset as usize..][..length as usize])
    }

    /// The values of `count` neighbouring keys from key `first` on, as offsets and lengths, tombstones skipped.
    pub fn span(&self, first: u64, count: usize, limit: u64) -> Result<Vec<(u64, u64)>, Refused> {
        let mut pairs = vec![0; 2 * count];
        let mut found = 0;
        checked(unsafe {
            sys::kiban_span(
                self.bytes.as_ptr(), self.bytes.len(), &self.record, first, count as u64, limit, pairs.as_mut_ptr(), pairs.len(),
                &mut found,
            )
        })?;
        Ok(pairs.chunks_exact(2).take(found as usize).map(|pair| (pair[0], pair[1])).collect())
    }
}

/// An entry to be added: where its value stands in the data, and whether its key is new.
pub struct Entry<'a> {
    pub kind: Kind,
    pub key: &'a [u8],
    pub value: &'a [u8],
    pub sequence: u64,
    pub new_key: bool,
    pub offset: u64,
}

/// A builder whose area grows.
#[derive(Default)]
pub struct Builder {
    record: [u64; 16],
    area: Vec<u8>,
}

impl Builder {
    pub fn add(&mut self, entry: &Entry) -> Result<(), Refused> {
        let room = self.record[3] as usize + 8 + entry.key.len() + 25;
        if self.area.len() < room {
            self.area.resize(2 * room, 0);
        }
        checked(unsafe {
            sys::kiban_add(
                self.area.as_mut_ptr(), self.area.len(), &mut self.record, (entry.kind == Kind::Tombstone) as u64,
                entry.key.as_ptr(), entry.key.len(), entry.value.as_ptr(), entry.value.len(), entry.sequence,
                entry.new_key as u64, entry.offset,
            )
        })
    }

    /// How long the section will be.
    pub fn size(&self, prefix: u64) -> Result<u64, Refused> {
        let mut size = 0;
        checked(unsafe { sys::kiban_size(&self.record, prefix, &mut size) })?;
        Ok(size)
    }

    pub fn write(&self, prefix: u64) -> Result<Vec<u8>, Refused> {
        let keys = self.record[0] as usize;
        let (mut scratch64, mut scratch32) = (vec![0; keys], vec![0; 6 * keys + 8]);
        let mut output = vec![0; self.size(prefix)? as usize];
        let mut len = 0;
        checked(unsafe {
            sys::kiban_write(
                self.area.as_ptr(), self.area.len(), &self.record, prefix, scratch64.as_mut_ptr(), scratch64.len(),
                scratch32.as_mut_ptr(), scratch32.len(), output.as_mut_ptr(), output.len(), &mut len,
            )
        })?;
        output.truncate(len as usize);
        Ok(output)
    }
}
