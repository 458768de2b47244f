/* How many bytes of stack each entry takes, with its return address and the arguments that are passed there: it runs on a stack of its own that
 * was filled with a mark, and what no longer holds the mark is counted. The inputs are the worked store of document 01, and beside it values of 1,000 bytes. */
#include <stdio.h>
#include <string.h>
#include <ucontext.h>
#include "../../include/kiban.h"

enum { STACK = 1 << 18, MARK = 0xa5, ROOM = 4096, LONG = 1000 };

static uint8_t stack[STACK] __attribute__((aligned(16)));
static ucontext_t caller, callee;

static size_t touched(void (*entry)(void)) {
    memset(stack, MARK, STACK);
    getcontext(&callee);
    callee.uc_stack.ss_sp = stack;
    callee.uc_stack.ss_size = STACK;
    callee.uc_link = &caller;
    makecontext(&callee, entry, 0);
    swapcontext(&caller, &callee);
    size_t free = 0;
    while (free < STACK && stack[free] == MARK)
        free++;
    return STACK - free;
}

/* One block of 82 bytes: `ab` 7 Put `xyz`, `ab` 3 Tombstone, `ac` 5 Put, empty. */
static uint8_t data[82], section[ROOM], packed[ROOM], area[ROOM], scratch[ROOM];
static const uint8_t many[LONG];
static uint64_t blocks[2] = {0, 82}, record[KIBAN_RECORD], packed_record[KIBAN_RECORD], builder[KIBAN_RECORD], other[KIBAN_RECORD];
static uint64_t answer[KIBAN_ANSWER], pairs[4];
static uint64_t size, len, packed_len, found, count, scratch64[64], result;
static uint32_t scratch32[64], crc;
static struct kiban_block_record records[2];

static void add(void) { result |= kiban_add(area, ROOM, builder, 0, (const uint8_t *)"ab", 2, data + 23, 3, 7, 1, 23); }
static void add_rest(void) {
    result |= kiban_add(area, ROOM, builder, 1, (const uint8_t *)"ab", 2, data, 0, 3, 0, 47);
    result |= kiban_add(area, ROOM, builder, 0, (const uint8_t *)"ac", 2, data, 0, 5, 1, 69);
}
static void add_long(void) { result |= kiban_add(packed, ROOM, other, 0, (const uint8_t *)"a", 1, many, LONG, 7, 1, 0); }
static void measure_size(void) { result |= kiban_size(builder, 1, &size); }
static void write(void) { result |= kiban_write(area, ROOM, builder, 1, scratch64, 64, scratch32, 64, section, ROOM, &len); }
static void open(void) { result |= kiban_open(section, len, data, 82, blocks, 2, scratch, ROOM, record); }
static void pack(void) {
    result |= kiban_open_packed(section, len, data, 82, blocks, 2, scratch, ROOM, packed, ROOM, packed_record, &packed_len);
}
static void lookup(void) { result |= kiban_lookup(section, len, record, (const uint8_t *)"ab", 2, 7, answer); }
static void lookup_packed(void) { result |= kiban_lookup(packed, packed_len, packed_record, (const uint8_t *)"ab", 2, 7, answer); }
static void value(void) { result |= kiban_value(data, 82, answer[KIBAN_A_OFFSET], answer[KIBAN_A_LENGTH]); }
static void span_one(void) { result |= kiban_span(section, len, record, 0, 1, UINT64_MAX, pairs, 4, &found); }
/* No key from the last on: asked question by question. */
static void span_none(void) { result |= kiban_span(section, len, record, 2, 0, UINT64_MAX, pairs, 4, &found); }
static void span(void) { result |= kiban_span(section, len, record, 0, 2, UINT64_MAX, pairs, 4, &found); }
static void crc_short(void) { crc = kiban_crc32(data, 82); }
static void crc_long(void) { crc = kiban_crc32(many, LONG); }
static void fill(void) { result |= kiban_fill_blocks(data, 82, blocks, 2, records, 2, &count); }
static void find(void) { result |= kiban_find_block(records, 1, 0); }
static void nothing(void) {}

int main(int argc, char **argv) {
    struct {
        const char *name;
        void (*entry)(void);
    } rows[] = {
        {"kiban_add", add}, {NULL, add_rest}, {"kiban_add, a long value", add_long}, {"kiban_size", measure_size}, {"kiban_write", write},
        {"kiban_open", open}, {"kiban_open_packed", pack}, {"kiban_lookup", lookup}, {"kiban_lookup, packed", lookup_packed},
        {"kiban_value", value}, {"kiban_span, one key", span_one}, {"kiban_span, asked question by question", span_none},
        {"kiban_span", span}, {"kiban_crc32", crc_short}, {"kiban_crc32, long", crc_long}, {"kiban_fill_blocks", fill}, {"kiban_find_block", find},
    };
    FILE *file = argc == 2 ? fopen(argv[1], "rb") : NULL;
    if (!file || fread(data, 1, 82, file) != 82)
        return 2;
    size_t without = touched(nothing);
    for (size_t i = 0; i < sizeof rows / sizeof *rows; i++) {
        size_t bytes = touched(rows[i].entry) - without;
        if (rows[i].name)
            printf("%s: %zu bytes\n", rows[i].name, bytes);
        if (result)
            return printf("refused: %llu\n", (unsigned long long)result), 1;
    }
    return 0;
}
