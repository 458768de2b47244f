/* Builds the worked store of document 01, opens it plain and packed, looks keys up under limits, fetches a value and a span, and shows a refusal. */
#include <inttypes.h>
#include <stdio.h>
#include <string.h>

#include "kiban.h"

/* The backing data: one block of 82 bytes. Values stand at 23, 47 and 69. */
static const uint8_t data[82] = {
    1, 0, 0, 0, 0, 2, 0, 0, 0, 3, 0, 0, 0, 7, 0, 0, 0, 0, 0, 0, 0, 'a', 'b', 'x', 'y', 'z', /* ab 7 Put xyz */
    2, 2, 0, 0, 0, 0, 0, 0, 0, 0, 0, 0, 0, 3, 0, 0, 0, 0, 0, 0, 0,                          /* ab 3 Tombstone */
    1, 1, 0, 0, 0, 1, 0, 0, 0, 0, 0, 0, 0, 5, 0, 0, 0, 0, 0, 0, 0, 'c',                     /* ac 5 Put */
    0, 0, 0, 0, 1, 0, 0, 0, 0, 169, 146, 60, 65,                                            /* restarts, type, CRC-32 */
};
static const uint64_t blocks[2] = {0, sizeof data};

/* A builder, with memory for small tables. */
struct builder {
    uint64_t record[KIBAN_RECORD];
    uint8_t area[KIBAN_AREA_LEN(2, 4, 3)];
};

static uint64_t add(struct builder *b, int tombstone, const char *key, size_t offset, size_t len, uint64_t sequence, int new_key)
{
    return kiban_add(b->area, sizeof b->area, b->record, (uint64_t)tombstone, (const uint8_t *)key, strlen(key),
                     data + offset, len, sequence, (uint64_t)new_key, offset);
}

/* Builds the section with a scan prefix: 0 and its length, or the refusal. */
static uint64_t build(uint64_t prefix, uint8_t *section, size_t room, size_t *len)
{
    struct builder b = {{0}, {0}};
    uint64_t refused = add(&b, 0, "ab", 23, 3, 7, 1);
    if (!refused)
        refused = add(&b, 1, "ab", 47, 0, 3, 0);
    if (!refused)
        refused = add(&b, 0, "ac", 69, 0, 5, 1);

    uint64_t size = 0;
    if (!refused)
        refused = kiban_size(b.record, prefix, &size);
    if (!refused && room < size)
        refused = KIBAN_SECTION_ROOM;
    if (refused)
        return refused;

    uint64_t scratch64[KIBAN_SCRATCH64_LEN(2)];
    uint32_t scratch32[KIBAN_SCRATCH32_LEN(2)];
    refused = kiban_write(b.area, sizeof b.area, b.record, prefix, scratch64, KIBAN_SCRATCH64_LEN(2), scratch32,
                          KIBAN_SCRATCH32_LEN(2), section, room, &size);
    *len = (size_t)size;
    return refused;
}

/* Prints what a lookup finds, as its sequence, kind and value. */
static void show(const char *form, const uint8_t *section, size_t section_len, const uint64_t *record, const char *key, uint64_t limit)
{
    uint64_t answer[KIBAN_ANSWER];
    uint64_t refused = kiban_lookup(section, section_len, record, (const uint8_t *)key, strlen(key), limit, answer);
    printf("%s %s under %" PRIu64 ": ", form, key, limit);
    if (refused) {
        printf("refused %" PRIu64 "\n", refused);
    } else if (!answer[KIBAN_A_FOUND]) {
        printf("none\n");
    } else {
        const char *kind = answer[KIBAN_A_KIND] == KIBAN_PUT ? "P" : "T";
        const char *value = "";
        int len = 0;
        if (!kiban_value(data, sizeof data, answer[KIBAN_A_OFFSET], answer[KIBAN_A_LENGTH])) {
            value = (const char *)data + answer[KIBAN_A_OFFSET];
            len = (int)answer[KIBAN_A_LENGTH];
        }
        printf("%" PRIu64 " %s '%.*s'\n", answer[KIBAN_A_SEQUENCE], kind, len, value);
    }
}

int main(void)
{
    uint8_t section[256];
    size_t len = 0;
    if (build(1, section, sizeof section, &len))
        return 1;
    printf("section of %zu bytes\n", len);

    /* Plain. */
    uint8_t scratch[KIBAN_KEY_SCRATCH_LEN(2)];
    uint64_t record[KIBAN_RECORD];
    uint64_t refused = kiban_open(section, len, data, sizeof data, blocks, 2, scratch, sizeof scratch, record);
    if (refused)
        return 1;
    printf("plain opening: %" PRIu64 ", %" PRIu64 " keys\n", refused, record[KIBAN_R_KEYS]);
    show("plain", section, len, record, "ab", 7);
    show("plain", section, len, record, "ab", 6);
    show("plain", section, len, record, "ab", 2);

    /* Both keys at once. */
    uint64_t pairs[KIBAN_SPAN_LEN(2)];
    uint64_t found = 0;
    refused = kiban_span(section, len, record, 0, 2, KIBAN_NO_LIMIT, pairs, KIBAN_SPAN_LEN(2), &found);
    printf("span: %" PRIu64 ",", refused);
    for (uint64_t i = 0; i < found; i++)
        printf(" (%" PRIu64 ", %" PRIu64 ")", pairs[2 * i], pairs[2 * i + 1]);
    printf("\n");

    /* Packed: what the boot loader gets, with packed_record. */
    uint8_t packed[KIBAN_PACKED_LEN(256)];
    uint64_t packed_record[KIBAN_RECORD];
    uint64_t packed_len = 0;
    refused = kiban_open_packed(section, len, data, sizeof data, blocks, 2, scratch, sizeof scratch, packed, sizeof packed,
                                packed_record, &packed_len);
    if (refused)
        return 1;
    printf("packed opening: %" PRIu64 ", %" PRIu64 " bytes\n", refused, packed_len);
    show("packed", packed, (size_t)packed_len, packed_record, "ab", 7);
    show("packed", packed, (size_t)packed_len, packed_record, "ac", 4);

    /* A changed byte is refused, and nothing is written. */
    section[90] ^= 1;
    refused = kiban_open(section, len, data, sizeof data, blocks, 2, scratch, sizeof scratch, record);
    printf("a changed byte: %" PRIu64 "%s\n", refused, refused == KIBAN_SECTION_CRC ? " (CRC-32 of the section)" : "");
    return refused ? 0 : 1;
}
