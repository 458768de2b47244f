/* KIBANPH3 point indexes for a linker or a loader: link libkiban.a (tools/archive builds it).
 *
 * Results. Every entry but kiban_crc32 and kiban_find_block returns 0, or the number of the first question that it
 * answers with no (enum kiban_refusal; docs/REFUSALS.md). A refusal changes nothing behind a pointer but scratch.
 *
 * Memory. No entry allocates, keeps state, or holds on to a pointer: entries may be called from any thread, each call
 * with memory that no other one writes. What an entry writes must overlap no other memory of the same call, since the
 * proofs rest on it; what is only read may overlap. Byte buffers need no alignment, arrays of 32-bit and 64-bit numbers
 * that of their type. A length of 0 is allowed everywhere; the pointer beside it is not read, but must not be null.
 * Scratch needs no initial contents, and what a call leaves in it has no meaning.
 *
 * Stack. The bytes named at the entries were measured on x86-64 with the worked store of document 01 (tools/stack/run).
 * No entry recurses or has memory on the stack whose size depends on its input; other inputs may take other paths, so
 * leave some room. */
#ifndef KIBAN_H
#define KIBAN_H

#include <stddef.h>
#include <stdint.h>

#ifdef __cplusplus
extern "C" {
#endif

/* The numbers of document 01, 0 for none (docs/REFUSALS.md says what each asks, what causes it and what to do). */
enum kiban_refusal {
    KIBAN_ACCEPTED = 0,
    KIBAN_TRAILER = 1,
    KIBAN_SECTION_CRC = 2,
    KIBAN_MAGIC = 3,
    KIBAN_HEADER = 4,
    KIBAN_SCAN_PART = 5,
    KIBAN_SCAN_SETTINGS = 6,
    KIBAN_NOT_PACKABLE = 7,
    KIBAN_PILOT_WIDE = 8,
    KIBAN_PACKED_ROOM = 9,
    KIBAN_PILOT_SLOT = 10,
    KIBAN_BLOCK_LIST = 11,
    KIBAN_BLOCK = 12,
    KIBAN_ENTRY = 13,
    KIBAN_LIMITS = 14,
    KIBAN_KEY_ROOM = 15,
    KIBAN_KEY_RECORD = 16,
    KIBAN_KEY_ORDER = 17,
    KIBAN_SCAN_ADDRESS = 18,
    KIBAN_SLOT = 19,
    KIBAN_VERSION = 20,
    KIBAN_VALUE_CRC = 21,
    KIBAN_ENDS = 22,
    KIBAN_PREFIX_COUNT = 23,
    KIBAN_RECORD_GIVEN = 24,
    KIBAN_READ = 25,
    KIBAN_VALUE_PLACE = 26,
    KIBAN_NO_SPANS = 27,
    KIBAN_SPAN_KEYS = 28,
    KIBAN_SPAN_ROOM = 29,
    KIBAN_ADD_LIMITS = 30,
    KIBAN_FIRST_NOT_NEW = 31,
    KIBAN_OFFSET_FALLS = 32,
    KIBAN_TOO_MANY_KEYS = 33,
    KIBAN_AREA_ROOM = 34,
    KIBAN_PREFIX_LONG = 35,
    KIBAN_NO_KEY = 36,
    KIBAN_BUILDER = 37,
    KIBAN_BUILD_SCRATCH = 38,
    KIBAN_SECTION_ROOM = 39,
    KIBAN_NO_SEED = 40,
    KIBAN_BLOCKS_ROOM = 41
};

/* Numbers in a record (opened or builder's) and in an answer. */
#define KIBAN_RECORD 16
#define KIBAN_ANSWER 6

/* Limits of the format and of the builder. */
#define KIBAN_MAX_KEY 1048576    /* bytes of a key */
#define KIBAN_MAX_VALUE 16777216 /* bytes of a value */
#define KIBAN_MAX_KEYS 1048576   /* keys of a builder */
#define KIBAN_MAX_PREFIX 24      /* bytes of a scan prefix */

/* Sizes that a caller needs. Each argument is used once; give size_t or uint64_t, or small constants. The key scratch
 * of the openings, in bytes, for keys up to this length: */
#define KIBAN_KEY_SCRATCH_LEN(longest_key) (2 * (longest_key))
/* the output of kiban_open_packed, in bytes: always enough for a section of this length */
#define KIBAN_PACKED_LEN(section_len) (section_len)
/* the pairs of kiban_span, in numbers */
#define KIBAN_SPAN_LEN(count) (2 * (count))
/* the area of kiban_add, in bytes, for so many keys with so many bytes in all, and so many versions in all */
#define KIBAN_AREA_LEN(keys, key_bytes, versions) (8 * (keys) + (key_bytes) + 25 * (versions))
/* the scratches of kiban_write, in numbers, for so many keys (place KIBAN_B_KEYS of the builder's record) */
#define KIBAN_SCRATCH64_LEN(keys) (keys)
#define KIBAN_SCRATCH32_LEN(keys) (6 * (keys) + 8)

/* A lookup or a span without a limit. */
#define KIBAN_NO_LIMIT UINT64_MAX

/* Places of an opened record; the last three are 0. */
enum kiban_record_place {
    KIBAN_R_SEED = 0,
    KIBAN_R_LEAST_SEQUENCE = 1,
    KIBAN_R_KEYS = 2,
    KIBAN_R_BUCKETS = 3,
    KIBAN_R_ARENA = 4,
    KIBAN_R_ADDRESS_WIDTH = 5,
    KIBAN_R_KEY_WIDTH = 6,
    KIBAN_R_COUNT_WIDTH = 7,
    KIBAN_R_SEQUENCE_WIDTH = 8,
    KIBAN_R_VALUE_WIDTH = 9,
    KIBAN_R_CHECKSUMS = 10, /* 0 or 1 */
    KIBAN_R_SCAN = 11,      /* place of the scan part, 0 without one and in a packed record */
    KIBAN_R_PACKED = 12     /* 0 or 1 */
};

/* Places of an answer: six zeros if there is none. */
enum kiban_answer_place {
    KIBAN_A_FOUND = 0, /* 1 if a version was found, a tombstone too: ask KIBAN_A_KIND */
    KIBAN_A_KIND = 1,  /* KIBAN_PUT or KIBAN_TOMBSTONE */
    KIBAN_A_SEQUENCE = 2,
    KIBAN_A_OFFSET = 3, /* of the value in the data */
    KIBAN_A_LENGTH = 4,
    KIBAN_A_CHECKSUM = 5 /* CRC-32 of the value, 0 in a section without checksums */
};

enum kiban_kind { KIBAN_PUT = 1, KIBAN_TOMBSTONE = 2 };

/* Places of a builder's record; sixteen zeros are the empty builder, and the last four are always 0. */
enum kiban_builder_place {
    KIBAN_B_KEYS = 0,
    KIBAN_B_VERSIONS = 1,
    KIBAN_B_SUFFIX_BYTES = 2,
    KIBAN_B_USED = 3, /* bytes of the area */
    KIBAN_B_LEAST_SEQUENCE = 4,
    KIBAN_B_GREATEST_SEQUENCE = 5,
    KIBAN_B_LONGEST_KEY = 6,
    KIBAN_B_LONGEST_VALUE = 7,
    KIBAN_B_MOST_VERSIONS = 8,
    KIBAN_B_LAST_OFFSET = 9,
    KIBAN_B_LAST_KEY = 10, /* place in the area */
    KIBAN_B_ANCHOR = 11    /* place in the area */
};

/* The CRC-32 of the data: the 32-bit frame check sequence of ITU-T V.42. Stack: 32 bytes. */
uint32_t kiban_crc32(const uint8_t *data, size_t data_len);

/* Opens a section beside its backing data and its block list: pairs of offset and length, `blocks_len` numbers in all,
 * which cover the data from 0 to its end in order, without gaps (11, 22). The scratch has KIBAN_KEY_SCRATCH_LEN(longest
 * key) bytes, else 15. On 0 the record is written. Stack: 1,052 bytes. */
uint64_t kiban_open(const uint8_t *section, size_t section_len, const uint8_t *data, size_t data_len,
                    const uint64_t *blocks, size_t blocks_len, uint8_t *scratch, size_t scratch_len,
                    uint64_t record[KIBAN_RECORD]);

/* Opens a section as kiban_open does, and writes its packed form to the output. On 0 the record is the packed one,
 * `*len` is the number of packed bytes, and the output keeps what it held behind them. Stack: 1,308 bytes. */
uint64_t kiban_open_packed(const uint8_t *section, size_t section_len, const uint8_t *data, size_t data_len,
                           const uint64_t *blocks, size_t blocks_len, uint8_t *scratch, size_t scratch_len,
                           uint8_t *output, size_t output_len, uint64_t record[KIBAN_RECORD], uint64_t *len);

/* Looks a key up in a section, or in a packed form, by the record that its opening wrote: the version of greatest
 * sequence not above the limit, which may be a tombstone. On 0 the answer is written, six zeros for none. Where the
 * record has checksums, kiban_crc32 of the value is the answer's checksum. A packed form is given as exactly the `*len`
 * bytes that kiban_open_packed counted, not as the whole output. Stack: 120 bytes. */
uint64_t kiban_lookup(const uint8_t *section, size_t section_len, const uint64_t record[KIBAN_RECORD],
                      const uint8_t *key, size_t key_len, uint64_t limit, uint64_t answer[KIBAN_ANSWER]);

/* Do an offset and a length lie in the data? 0, or 26. The value is then the part of the data at that offset. Stack: 8
 * bytes. */
uint64_t kiban_value(const uint8_t *data, size_t data_len, uint64_t offset, uint64_t length);

/* The values of `count` neighbouring keys from key `first` on (counted from 0, in key order) under a limit: of each
 * key's version of greatest sequence not above the limit, unless that is a tombstone. On 0 the pairs (offset, length)
 * stand in key order in the first 2 * `*found` places, and the places behind them are kept. For sections with a scan
 * part and 4-byte addresses, opened plain (27). No entry tells the place of a key among the keys. Stack: 777 bytes, 424
 * for one key of a section whose widths are 4, 1, 1, at most 4, and 2. */
uint64_t kiban_span(const uint8_t *section, size_t section_len, const uint64_t record[KIBAN_RECORD],
                    uint64_t first, uint64_t count, uint64_t limit, uint64_t *pairs, size_t pairs_len, uint64_t *found);

/* Adds an entry to a builder: a version of a new key (`new_key` not 0), or of the last key (`new_key` 0; its key must
 * be the same, which is not asked). `tombstone` 0 is a Put. Of the value its length, its CRC-32 and `offset`, its place
 * in the data, are kept, not its bytes. The first call is given a record of sixteen zeros; each later one the record
 * and the used bytes of the area as the last one left them. The area may grow or move in between, and what stands
 * behind the used bytes does not matter. On 0 area and record hold the entry. That the section opens is promised for
 * entries in order: keys rise, versions of a key fall in sequence, tombstones have empty values, and each offset is
 * where the value stands in the data. Stack: 384 bytes. */
uint64_t kiban_add(uint8_t *area, size_t area_len, uint64_t builder[KIBAN_RECORD], uint64_t tombstone,
                   const uint8_t *key, size_t key_len, const uint8_t *value, size_t value_len,
                   uint64_t sequence, uint64_t new_key, uint64_t offset);

/* How many bytes kiban_write would write with this scan prefix; it asks neither 35 nor 36. On 0 `*size` is written.
 * Stack: 184 bytes. */
uint64_t kiban_size(const uint64_t builder[KIBAN_RECORD], uint64_t prefix, uint64_t *size);

/* Writes the section of the entries added, with a scan part for spans if the prefix is 1 to 24. The same entries and
 * prefix give the same bytes on every machine. On 0 the section stands at the front of the output, `*len` is its
 * length, and what is behind it is kept. Stack: 888 bytes. */
uint64_t kiban_write(const uint8_t *area, size_t area_len, const uint64_t builder[KIBAN_RECORD], uint64_t prefix,
                     uint64_t *scratch64, size_t scratch64_len, uint32_t *scratch32, size_t scratch32_len,
                     uint8_t *output, size_t output_len, uint64_t *len);

/* A block's pair of the block list, and three numbers counted in the block: where its entries end, where its restart
 * offsets start, and how many these are. */
struct kiban_block_record {
    uint64_t offset;
    uint64_t len;
    uint64_t entries_end;
    uint64_t restart_start;
    uint64_t num_restarts;
};

/* Writes a record for each pair of the block list, in its order, once every pair passes 11 and 12 and has a place (41,
 * `records_len` places). On 0 `*count` is how many, and the records behind them are kept. Stack: 220 bytes. */
uint64_t kiban_fill_blocks(const uint8_t *data, size_t data_len, const uint64_t *blocks, size_t blocks_len,
                           struct kiban_block_record *records, size_t records_len, uint64_t *count);

/* The lowest place with that offset among the records given, which may be any part of a list, counted from its start;
 * `records_len` if none has it. The result is a place, not a refusal. Stack: 8 bytes. */
uint64_t kiban_find_block(const struct kiban_block_record *records, size_t records_len, uint64_t offset);

#ifdef __cplusplus
}
#endif

#endif
