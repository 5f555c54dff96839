/* Block reading beside the exact program, by itself, with a meter and with a reader, and depth change, on blocks that libFuzzer
 * makes.
 *
 * The first byte says how many places are lent beside those that the first count asks for, and how many bytes for the other depth
 * beside the block's own; the third says the target, and the fourth what the reader asks for. The rest is the block; where the
 * second byte is odd it is stretched: the words after the first count are repeated to fill three sections of that count, and where
 * its second bit is set too the last word is at the end of video data. Its upper bits say how many rows the meter has, whose counts
 * are the bytes of the block again and again; from 66 on the whole meter is.
 */
#include "harness.h"

enum { MOST_BYTES = 50000, MOST_ROOM = MOST_BYTES + 200, MOST_PLACES = 3 * FERGHULTA_MOST_SAMPLES + 200, GUARD = 16 };

static uint8_t *bytes_end, *codes_end;

int LLVMFuzzerInitialize(int *argc, char ***argv)
{
    (void)argc, (void)argv;
    bytes_end = fenced_end();
    codes_end = fenced_end();
    return atexit(print_compared);
}

static uint16_t first_count(const uint8_t *block, size_t length)
{
    return length < 5 ? 0 : (uint16_t)(block[3] | block[4] << 8);
}

static size_t places_for(int8_t more, uint16_t count)
{
    long places = 3L * count + more;
    return places < 0 ? 0 : places > MOST_PLACES ? MOST_PLACES : (size_t)places;
}

static size_t stretch(const uint8_t *block, size_t length, uint8_t *to)
{
    size_t count = first_count(block, length) % (FERGHULTA_MOST_SAMPLES + 2), words = length - 5, at = 3;
    memcpy(to, block, 3);
    for (size_t section = 0; section < 3; section++) {
        to[at++] = count & 0xFF;
        to[at++] = (uint8_t)(count >> 8);
        for (size_t byte = 0; byte < 2 * count; byte++)
            to[at++] = block[5 + (byte + section * words / 3) % words];
    }
    return at;
}

/* One of the last four words of video data: at the other depth some of them are timing codes. */
static void end_with_last_word(uint8_t *block, size_t length, uint8_t which)
{
    uint16_t s = block[0] == 1 ? 1 : block[0] == 4 ? 16 : 4, word = (uint16_t)(255 * s - 1 - which % 4);
    memcpy(block + length - 2, &word, sizeof word);
}

/* Up to 65 rows the parts agree, but for 65 rows themselves. */
static ferghulta_meter meter_of(const uint8_t *block, size_t length, uint32_t rows)
{
    ferghulta_meter meter = ferghulta_empty_meter();
    uint8_t *bytes = (uint8_t *)&meter;
    for (size_t at = 0; at < sizeof meter && length > 0; at++)
        bytes[at] = block[at % length];
    if (rows <= FERGHULTA_METER_ROWS + 1) {
        meter.rows = rows;
        meter.place = rows < FERGHULTA_METER_ROWS ? rows : meter.place % FERGHULTA_METER_ROWS;
        sum_up(&meter);
    }
    return meter;
}

static void compare_metered(const uint8_t *block, size_t length, size_t places, uint32_t rows)
{
    static uint16_t wanted_memory[GUARD + MOST_PLACES];
    uint8_t *bytes = bytes_end - length;
    uint16_t *codes = (uint16_t *)codes_end - places, *memory = codes - GUARD;
    size_t memory_bytes = (GUARD + places) * sizeof *memory;
    ferghulta_meter meter = meter_of(block, length, rows);
    memcpy(bytes, block, length);
    memset(memory, 0x5A, memory_bytes);
    memset(wanted_memory, 0x5A, memory_bytes);
    ferghulta_metered_answer got = ferghulta_read_metered(meter, bytes, length, codes, places);
    ferghulta_metered_answer wanted = exact_read_metered(meter, block, length, wanted_memory + GUARD, places);
    note(READ_METERED, got.block.refusal);
    agree(READ_METERED, "the answer", &got, &wanted, sizeof got);
    agree(READ_METERED, "the codes", memory, wanted_memory, memory_bytes);
    agree(READ_METERED, "the bytes lent", bytes, block, length);
    agree_on_figures(meter);
    agree_on_figures(got.meter);
}

static void compare(const uint8_t *block, size_t length, size_t places)
{
    static uint16_t wanted_memory[GUARD + MOST_PLACES];
    uint8_t *bytes = bytes_end - length;
    uint16_t *codes = (uint16_t *)codes_end - places, *memory = codes - GUARD;
    size_t memory_bytes = (GUARD + places) * sizeof *memory;
    memcpy(bytes, block, length);
    memset(memory, 0xA5, memory_bytes);
    memset(wanted_memory, 0xA5, memory_bytes);
    ferghulta_block_answer got = ferghulta_read_block(bytes, length, codes, places);
    ferghulta_block_answer wanted = exact_read_block(block, length, wanted_memory + GUARD, places);
    note(READ_BLOCK, got.refusal);
    agree(READ_BLOCK, "the answer", &got, &wanted, sizeof got);
    agree(READ_BLOCK, "the codes", memory, wanted_memory, memory_bytes);
    agree(READ_BLOCK, "the bytes lent", bytes, block, length);
}

/* Mostly a reader to which the block is due, as the first one where the highest bit is set. The other bits make another system,
 * width and row number, another phase, a picture that ends with this row or before it, or the last bytes of the block a reader. */
static ferghulta_reader reader_of(uint8_t byte, const uint8_t *block, size_t length)
{
    uint8_t bits = byte % 128 < 64 ? byte & 128 : byte;
    ferghulta_reader reader = { FERGHULTA_READING, 0, 0, FERGHULTA_MOST_ROWS, 0 };
    if (bits < 128 && length >= 3) {
        reader.system = block[0];
        reader.width = first_count(block, length);
        memcpy(&reader.next, block + 1, sizeof reader.next);
    }
    if (bits & 1)
        reader.system = reader.system % 4 + 1;
    if (bits & 2)
        reader.width ^= 1;
    if (bits & 4)
        reader.next ^= 1;
    if (bits & 8)
        reader.phase = FERGHULTA_COMPLETE + bits / 16 % 2;
    if (bits & 48)
        reader.height = (uint16_t)(reader.next + bits / 16 % 2);
    if (bits % 128 >= 112 && length >= sizeof reader)
        memcpy(&reader, block + length - sizeof reader, sizeof reader);
    return reader;
}

static void compare_next(ferghulta_reader reader, const uint8_t *block, size_t length, size_t places)
{
    static uint16_t wanted_memory[GUARD + MOST_PLACES];
    uint8_t *bytes = bytes_end - length;
    uint16_t *codes = (uint16_t *)codes_end - places, *memory = codes - GUARD;
    size_t memory_bytes = (GUARD + places) * sizeof *memory;
    memcpy(bytes, block, length);
    memset(memory, 0xA5, memory_bytes);
    memset(wanted_memory, 0xA5, memory_bytes);
    ferghulta_next_answer got = ferghulta_read_next(reader, bytes, length, codes, places);
    ferghulta_next_answer wanted = exact_read_next(reader, block, length, wanted_memory + GUARD, places);
    note(READ_NEXT, got.block.refusal);
    agree(READ_NEXT, "the answer", &got, &wanted, sizeof got);
    agree(READ_NEXT, "the codes", memory, wanted_memory, memory_bytes);
    agree(READ_NEXT, "the bytes lent", bytes, block, length);
}

/* Mostly the other depth of the block's Recommendation, a small number, or any. */
static uint32_t target_of(uint8_t byte, const uint8_t *block, size_t length)
{
    static const uint8_t others[] = { 2, 1, 4, 3 };
    uint32_t any = byte;
    if (byte < 160)
        return length > 0 ? others[(block[0] + 3) % 4] : 1;
    if (byte >= 240 && length >= sizeof any)
        memcpy(&any, block + length - sizeof any, sizeof any);
    return byte < 240 ? byte % 6 : any;
}

/* A block that went up and comes down has its first bytes. */
static void compare_down(const uint8_t *first, const uint8_t *up, size_t length)
{
    static uint8_t down[MOST_BYTES];
    uint32_t refusal = ferghulta_change_depth(first[0], up, length, down, length), none = 0;
    agree(CHANGE_DEPTH, "the refusal downward", &refusal, &none, sizeof refusal);
    agree(CHANGE_DEPTH, "up and then down", down, first, length);
}

static void compare_depth(uint32_t target, const uint8_t *block, size_t length, size_t room)
{
    static uint8_t wanted_memory[GUARD + MOST_ROOM];
    uint8_t *bytes = bytes_end - length, *out = codes_end - room, *memory = out - GUARD;
    memcpy(bytes, block, length);
    memset(memory, 0x5A, GUARD + room);
    memset(wanted_memory, 0x5A, GUARD + room);
    uint32_t got = ferghulta_change_depth(target, bytes, length, out, room);
    uint32_t wanted = exact_change_depth(target, block, length, wanted_memory + GUARD, room);
    note(CHANGE_DEPTH, got);
    agree(CHANGE_DEPTH, "the refusal", &got, &wanted, sizeof got);
    agree(CHANGE_DEPTH, "the buffer", memory, wanted_memory, GUARD + room);
    agree(CHANGE_DEPTH, "the bytes lent", bytes, block, length);
    if (got == 0 && target > block[0])
        compare_down(block, out, length);
}

int LLVMFuzzerTestOneInput(const uint8_t *data, size_t size)
{
    static uint8_t stretched[MOST_BYTES];
    if (size < 4 || size > MOST_BYTES)
        return 0;
    const uint8_t *block = data + 4;
    size_t length = size - 4;
    if (data[1] % 2 == 1 && length > 5) {
        length = stretch(block, length, stretched);
        if (data[1] % 4 == 3)
            end_with_last_word(stretched, length, data[0]);
        block = stretched;
    }
    size_t places = places_for((int8_t)data[0], first_count(block, length));
    compare(block, length, places);
    compare_metered(block, length, places, data[1] / 2);
    compare_next(reader_of(data[3], block, length), block, length, places);
    long room = (long)length + (int8_t)data[0];
    compare_depth(target_of(data[2], block, length), block, length, room < 0 ? 0 : (size_t)room);
    return 0;
}
