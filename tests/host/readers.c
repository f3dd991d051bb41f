/* Tries how include/mmu.h reads the runs: words, numbers, entries, slots, the places of a page. It is held against bytes that are set bit
 * by bit as document 01 numbers the bits, and against what the calls leave and answer.
 * It prints what is wrong, and ends with 1 where anything is. */

#include "trial.h"

enum { WORD_BYTES = 4, RANDOM_WORDS = 1000, IDENTIFICATIONS = 63, RANDOM_ENTRIES = 100000, RANDOM_LOADS = 4000 };
enum { VPN_BITS = 19, DIRECTORIES = 32, TABLES = 16 };

static uint32_t random_below(uint32_t end)
{
    return (uint32_t)(random_bits(32) % end);
}

/* A word is read from its bytes, most significant first, and written to just these bytes. */
static void try_words(void)
{
    for (unsigned n = 0; n < RANDOM_WORDS; n++) {
        uint8_t bytes[WORD_BYTES + 2], written[WORD_BYTES + 2];
        uint32_t word = 0;

        for (size_t byte = 0; byte < sizeof bytes; byte++)
            bytes[byte] = written[byte] = (uint8_t)random_bits(8);
        for (size_t byte = 1; byte <= WORD_BYTES; byte++) {
            word = word * 256 + bytes[byte];
            written[byte] = (uint8_t)~bytes[byte];
        }
        expect("a word", mmu_get_word(bytes + 1), word);
        mmu_put_word(written + 1, word);
        expect("whether a word is written well", memcmp(written, bytes, sizeof bytes) == 0, true);
    }
}

/* Document 01: "Entry, most significant first: vpn15 in bits 43 to 29, page_id 28 to 23, global 22, valid 21, kernel 20, we 19, pfn 18 to
 * 0. Bits 44 and up are ignored on reading and written as zero." */

enum { VPN15, PAGE_ID, GLOBAL, VALID, KERNEL, WE, PFN, ABOVE, FIELDS };

static const struct {
    unsigned top;
    unsigned bottom;
} places[FIELDS] = {{43, 29}, {28, 23}, {22, 22}, {21, 21}, {20, 20}, {19, 19}, {18, 0}, {63, 44}};

static unsigned width(unsigned field)
{
    return places[field].top - places[field].bottom + 1;
}

static uint64_t all_ones(unsigned field)
{
    return UINT64_MAX >> (NUMBER_BITS - width(field));
}

/* Turns a bit of the number in these eight bytes round. */
static void flip(uint8_t *eight, unsigned bit)
{
    eight[NUMBER_BYTES - 1 - bit / 8] ^= (uint8_t)(1u << bit % 8);
}

static void put_fields(uint32_t slot, const uint64_t fields[FIELDS])
{
    uint8_t *eight = buffer + NUMBER_BYTES * slot;

    memset(eight, 0, NUMBER_BYTES);
    for (unsigned field = 0; field < FIELDS; field++)
        for (unsigned n = 0; n < width(field); n++)
            if ((fields[field] >> n & 1u) != 0)
                flip(eight, places[field].bottom + n);
}

static void expect_fields(uint32_t slot, const uint64_t fields[FIELDS])
{
    struct mmu_entry entry = mmu_slot_entry(buffer, slot);

    expect("vpn15", entry.vpn15, fields[VPN15]);
    expect("page_id", entry.page_id, fields[PAGE_ID]);
    expect("global", entry.global, fields[GLOBAL]);
    expect("valid", entry.valid, fields[VALID]);
    expect("kernel", entry.kernel, fields[KERNEL]);
    expect("we", entry.we, fields[WE]);
    expect("pfn", entry.pfn, fields[PFN]);
    expect("a slot's vpn", mmu_slot_vpn(buffer, slot), fields[VPN15] * 16 + slot % 16);
}

/* The number in eight bytes, counted up from the first byte. */
static uint64_t counted(const uint8_t *eight)
{
    uint64_t number = 0;

    for (size_t n = 0; n < NUMBER_BYTES; n++)
        number = number * 256 + eight[n];
    return number;
}

/* Whether document 01 calls a slot with these fields empty: "vpn15 = its set number, page_id 63, all else 0". */
static bool is_empty(uint32_t slot, const uint64_t fields[FIELDS])
{
    return fields[VPN15] == slot / 16 && fields[PAGE_ID] == 63 &&
           (fields[GLOBAL] | fields[VALID] | fields[KERNEL] | fields[WE] | fields[PFN]) == 0;
}

static void try_fields(uint32_t slot, const uint64_t fields[FIELDS])
{
    const uint8_t *eight = buffer + NUMBER_BYTES * slot;

    put_fields(slot, fields);
    expect("a number", mmu_get_number(eight), counted(eight));
    expect_fields(slot, fields);
    expect("whether a slot is empty", mmu_slot_empty(buffer, slot), is_empty(slot, fields));
}

/* Each field with each of its bits alone, with all bits but that one, with none and with all, between fields of zeros and of ones. */
static void try_edges(void)
{
    for (unsigned field = 0; field < FIELDS; field++)
        for (unsigned ones = 0; ones < 2; ones++)
            for (unsigned n = 0; n <= width(field); n++) {
                uint64_t bit = n < width(field) ? UINT64_C(1) << n : 0;
                uint64_t fields[FIELDS];

                for (unsigned other = 0; other < FIELDS; other++)
                    fields[other] = ones != 0 ? all_ones(other) : 0;
                fields[field] = bit;
                try_fields(random_below(MMU_SLOTS), fields);
                fields[field] = all_ones(field) - bit;
                try_fields(random_below(MMU_SLOTS), fields);
            }
}

static void try_random_entries(void)
{
    for (unsigned n = 0; n < RANDOM_ENTRIES; n++) {
        uint64_t fields[FIELDS];

        for (unsigned field = 0; field < FIELDS; field++)
            fields[field] = random_bits(width(field));
        try_fields(random_below(MMU_SLOTS), fields);
    }
}

/* A slot as the start leaves it is empty; with one of its 44 bits turned round it is not. What stands above them is ignored. */
static void try_empty_slots(void)
{
    start();
    expect("empty slot 16", mmu_get_number(buffer + 16 * NUMBER_BYTES), 1065353216);
    expect("empty slot 63", mmu_get_number(buffer + 63 * NUMBER_BYTES), 2139095040);
    for (uint32_t slot = 0; slot < MMU_SLOTS; slot++)
        for (unsigned bit = 0; bit < NUMBER_BITS; bit++) {
            uint8_t *eight = buffer + NUMBER_BYTES * slot;

            expect("whether a started slot is empty", mmu_slot_empty(buffer, slot), true);
            flip(eight, bit);
            expect("whether it is with a bit turned round", mmu_slot_empty(buffer, slot), bit >= 44);
            flip(eight, bit);
        }
}

/* A page, its leaf and an access to it. */
struct load {
    uint32_t vpn, offset, identification, root, directory, table, draw;
    uint64_t fields[FIELDS];
};

static uint64_t served(uint32_t address, uint32_t draw)
{
    return mmu_served_access(registers, R, buffer, B, tables, T, address, false, false, draw);
}

/* A directory and a table that share no word. */
static struct load random_load(void)
{
    struct load load;

    load.vpn = (uint32_t)random_bits(VPN_BITS);
    load.offset = (uint32_t)random_bits(OFFSET_BITS);
    load.identification = random_below(IDENTIFICATIONS);
    load.directory = 2 + random_below(DIRECTORIES - 2);
    do
        load.table = 1 + random_below(TABLES - 1);
    while (load.table == load.directory / 2);
    load.draw = random_below(4);
    for (unsigned field = 0; field < FIELDS; field++)
        load.fields[field] = random_bits(width(field));
    load.fields[VPN15] = load.vpn / 16;
    load.fields[PAGE_ID] = load.identification;
    load.root = load.fields[GLOBAL] != 0 ? MMU_GLOBAL_ROOT : load.identification;
    return load;
}

static void fill_tables(const struct load *load)
{
    uint32_t leaf = MMU_PRESENT | (load->fields[VALID] != 0 ? MMU_VALID : 0) | (load->fields[KERNEL] != 0 ? MMU_KERNEL : 0) |
                    (load->fields[WE] != 0 ? MMU_WE : 0) | (uint32_t)load->fields[PFN];

    memset(tables, 0, sizeof tables);
    put_table_word(load->root, MMU_PRESENT | load->directory);
    put_table_word(mmu_directory_index(load->directory, load->vpn), MMU_PRESENT | load->table);
    put_table_word(mmu_leaf_index(load->table, load->vpn), leaf);
}

/* Only this slot is not empty; with MMU_SLOTS, all are empty. */
static void expect_empty_but(uint32_t slot)
{
    for (uint32_t n = 0; n < MMU_SLOTS; n++)
        expect("whether a slot is empty after the calls", mmu_slot_empty(buffer, n), n != slot);
}

/* A page is found where the header's indices put it, its entry is read as it was loaded, and its slot is empty once the leaf goes. A load
 * leaves its slot's number in SELECT. */
static void try_load(const struct load *load)
{
    uint32_t address = load->vpn << OFFSET_BITS | load->offset;
    uint64_t answer;
    uint32_t slot;

    fill_tables(load);
    start();
    set(MMU_CTRL, MMU_INV_EXC);
    set(MMU_ENABLE, 1);
    set(MMU_CONTEXT, load->identification);
    answer = served(address, load->draw);
    slot = mmu_get_word(registers + MMU_AT_SELECT);
    expect("an access's loads", mmu_loads(answer), 1);
    expect("an access's kind", mmu_kind(answer), load->fields[VALID] != 0 ? 0 : MMU_INVALID_PAGE);
    expect("an address", mmu_address(answer), load->fields[VALID] != 0 ? load->fields[PFN] * MMU_PAGE_BYTES + load->offset : 0);
    expect("the vpn of an address", mmu_vpn_of(address), load->vpn);
    expect("a page's slot", mmu_slot_of(load->draw, load->vpn), slot);
    expect_empty_but(slot);
    expect_fields(slot, load->fields);
    expect("a loaded page's vpn", mmu_slot_vpn(buffer, slot), load->vpn);
    expect("the slots emptied", store(mmu_leaf_index(load->table, load->vpn), 0), 1);
    expect_empty_but(MMU_SLOTS);
}

static void try_loads(void)
{
    static const uint32_t edges[] = {0, 15, 16, 1023, 1024, (1u << VPN_BITS) - 1};
    const size_t edge_count = sizeof edges / sizeof edges[0];

    for (size_t n = 0; n < RANDOM_LOADS; n++) {
        struct load load = random_load();

        if (n < edge_count) {
            load.vpn = edges[n];
            load.fields[VPN15] = load.vpn / 16;
        }
        try_load(&load);
    }
}

/* A buffer of zeros that was never started. An access has an exception of value 0 just where docs/C_INTERFACE.md says so, and else the
 * answer that a started buffer gives. */

struct settings {
    uint32_t kseg, ctrl, enable, identification;
};

static void make(const struct settings *settings)
{
    set(MMU_KSEG, settings->kseg);
    set(MMU_CTRL, settings->ctrl);
    set(MMU_ENABLE, settings->enable);
    set(MMU_CONTEXT, settings->identification);
}

static uint64_t raw(uint32_t address)
{
    return mmu_raw_access(registers, R, buffer, B, address, false, false, 0);
}

static void expect_unstarted(const char *what, uint64_t answer, uint64_t started, bool of_value_0)
{
    expect(what, mmu_excepted(answer) && mmu_value(answer) == 0, of_value_0);
    if (!of_value_0)
        expect(what, answer, started);
}

static void try_unstarted(const struct settings *settings, uint32_t vpn)
{
    bool of_value_0 = settings->enable == 1 && (settings->ctrl & MMU_INV_EXC) != 0 && settings->identification == 0 && vpn < 16 &&
                      settings->kseg == 0;
    uint32_t address = vpn << OFFSET_BITS;
    uint64_t started_raw, started_served;

    start();
    make(settings);
    started_raw = raw(address);
    started_served = served(address, 0);
    memset(registers, 0, sizeof registers);
    memset(buffer, 0, sizeof buffer);
    make(settings);
    expect_unstarted("a raw access without a start", raw(address), started_raw, of_value_0);
    expect_unstarted("a served access without a start", served(address, 0), started_served, of_value_0);
}

/* Every program has the same few pages. Segment 0 is translated, and linear. */
static void try_all_unstarted(void)
{
    enum { DIRECTORY = 1, TABLE = 1, PAGES = 64 };

    memset(tables, 0, sizeof tables);
    put_table_word(mmu_directory_index(DIRECTORY, 0), MMU_PRESENT | TABLE);
    for (uint32_t vpn = 0; vpn < PAGES; vpn++)
        put_table_word(mmu_leaf_index(TABLE, vpn), MMU_PRESENT | (vpn % 2 != 0 ? MMU_VALID : 0) | vpn);
    for (uint32_t n = 0; n < 2 * 8 * 2 * IDENTIFICATIONS; n++) {
        struct settings settings = {n % 2, n / 2 % 8, n / 16 % 2, n / 32};

        put_table_word(settings.identification, MMU_PRESENT | DIRECTORY);
        for (uint32_t vpn = 0; vpn < PAGES; vpn++)
            try_unstarted(&settings, vpn);
    }
}

int main(void)
{
    try_words();
    try_edges();
    try_random_entries();
    try_empty_slots();
    try_loads();
    try_all_unstarted();
    return verdict();
}
