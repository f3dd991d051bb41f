/* Tries the numbers that include/mmu.h names, and how it takes an answer apart. They are held against document 01's numbers, against the
 * answer's bits in docs/C_INTERFACE.md, and against what the calls take, leave and answer.
 * It prints what is wrong, and ends with 1 where anything is. */

#include "trial.h"

enum { RANDOM_ANSWERS = 1000, RANDOM_SETTINGS = 100 };

/* The parts of an answer, by the bits of docs/C_INTERFACE.md's table. */

static uint64_t bits(uint64_t answer, unsigned top, unsigned bottom)
{
    return answer >> bottom & UINT64_MAX >> (NUMBER_BITS - 1 - (top - bottom));
}

static void expect_parts(uint64_t answer)
{
    expect("mmu_address", mmu_address(answer), bits(answer, 31, 0));
    expect("mmu_emptied", mmu_emptied(answer), bits(answer, 31, 0));
    expect("mmu_value", mmu_value(answer), bits(answer, 47, 32));
    expect("mmu_kind", mmu_kind(answer), bits(answer, 39, 32));
    expect("mmu_level", mmu_level(answer), bits(answer, 43, 40));
    expect("mmu_in_global_tree", mmu_in_global_tree(answer), bits(answer, 44, 44));
    expect("mmu_loads", mmu_loads(answer), bits(answer, 51, 48));
    expect("mmu_has_address", mmu_has_address(answer), bits(answer, 52, 52));
    expect("mmu_interrupts", mmu_interrupts(answer), bits(answer, 53, 53));
    expect("mmu_excepted", mmu_excepted(answer), bits(answer, 54, 54));
    expect("mmu_refusal", mmu_refusal(answer), bits(answer, 63, 56));
}

/* Each bit alone, all bits but that one, and random answers. */
static void try_parts(void)
{
    for (unsigned n = 0; n < NUMBER_BITS; n++) {
        expect_parts(UINT64_C(1) << n);
        expect_parts(~(UINT64_C(1) << n));
    }
    for (unsigned n = 0; n < RANDOM_ANSWERS; n++)
        expect_parts(random_bits(NUMBER_BITS));
}

/* Accesses, whose answers are taken apart well. */

static uint64_t raw(uint32_t address, bool user, bool write, uint32_t draw)
{
    uint64_t answer = mmu_raw_access(registers, R, buffer, B, address, user, write, draw);

    expect_parts(answer);
    return answer;
}

static uint64_t served(uint32_t address, bool user, bool write, uint32_t draw)
{
    uint64_t answer = mmu_served_access(registers, R, buffer, B, tables, T, address, user, write, draw);

    expect_parts(answer);
    return answer;
}

/* Document 01: "Numbers (course rule): 0 KSEG 16 bits; 1 CTRL, inv_exc bit 2, acc_exc 1, we_exc 0; 2 ENABLE 1 bit; 3 KBASE_LO; 4 KBASE_HI,
 * both 32 bits [..]; 5 CONTEXT 6 bits; 6 SELECT 6 bits; 7 TLB_HI, vpn bits 24 to 6, page_id 5 to 0; 8 TLB_LO, entry bits 22 to 0; 9 test
 * mode 1 bit." Four bytes for each number, "then four for exception value × 2 + write bit". */

enum { CONTEXT = 5, SETTINGS = 6, REGISTERS = 11 };

static const struct {
    const char *name;
    uint32_t at;
    unsigned width;
} places[REGISTERS] = {
    {"KSEG", MMU_AT_KSEG, 16},
    {"CTRL", MMU_AT_CTRL, 3},
    {"ENABLE", MMU_AT_ENABLE, 1},
    {"KBASE_LO", MMU_AT_KBASE_LO, 32},
    {"KBASE_HI", MMU_AT_KBASE_HI, 32},
    {"CONTEXT", MMU_AT_CONTEXT, 6},
    {"SELECT", MMU_AT_SELECT, 6},
    {"TLB_HI", MMU_AT_TLB_HI, 25},
    {"TLB_LO", MMU_AT_TLB_LO, 23},
    {"test mode", MMU_AT_TEST, 1},
    {"the cause", MMU_AT_CAUSE, 5},
};

static const uint32_t numbers[SETTINGS] = {MMU_KSEG, MMU_CTRL, MMU_ENABLE, MMU_KBASE_LO, MMU_KBASE_HI, MMU_CONTEXT};

/* The largest value of a register. */
static uint32_t most_of(unsigned number)
{
    return UINT32_MAX >> (32 - places[number].width);
}

/* The largest value that a setting takes. */
static uint32_t most_set(unsigned number)
{
    return number == CONTEXT ? 62 : most_of(number);
}

/* A register takes its bits at its byte and no more: a value with one bit more is refused by an access. */
static void try_widths(void)
{
    for (unsigned n = 0; n < REGISTERS; n++) {
        start();
        expect(places[n].name, places[n].at, 4 * n);
        mmu_put_word(registers + places[n].at, most_of(n));
        expect(places[n].name, mmu_refusal(raw(0, false, false, 0)), 0);
        if (most_of(n) == UINT32_MAX)
            continue;
        start();
        mmu_put_word(registers + places[n].at, most_of(n) + 1);
        expect(places[n].name, mmu_refusal(raw(0, false, false, 0)), 1);
    }
}

/* A setting by its name changes the register of that name and no other. */
static void try_setting(unsigned number, uint32_t value)
{
    uint32_t before[REGISTERS];

    for (unsigned n = 0; n < REGISTERS; n++) {
        before[n] = (uint32_t)random_bits(places[n].width);
        mmu_put_word(registers + 4 * n, before[n]);
    }
    set(numbers[number], value);
    expect(places[number].name, mmu_get_word(registers + places[number].at), value);
    for (unsigned n = 0; n < REGISTERS; n++)
        expect(places[n].name, mmu_get_word(registers + 4 * n), n == number ? value : before[n]);
}

static void try_settings(void)
{
    for (unsigned number = 0; number < SETTINGS; number++) {
        uint32_t most = most_set(number);

        try_setting(number, 0);
        try_setting(number, most);
        for (unsigned n = 0; n < RANDOM_SETTINGS; n++)
            try_setting(number, (uint32_t)(random_bits(32) % (UINT64_C(1) + most)));
        if (most != UINT32_MAX)
            expect(places[number].name, mmu_refusal(mmu_guarded_setting(registers, R, numbers[number], most + 1)),
                   number == CONTEXT ? MMU_REFUSED_SERVICE : MMU_REFUSED_SETTING);
    }
    expect("CTRL with all its bits", MMU_INV_EXC | MMU_ACC_EXC | MMU_WE_EXC, most_of(MMU_CTRL));
}

/* A segment's bit in KSEG makes it linear, and its base stands in KBASE_LO or KBASE_HI. The second one is document 01's example. */
static void try_segments(void)
{
    start();
    set(MMU_ENABLE, 1);
    set(MMU_KSEG, 0x1802);
    set(MMU_KBASE_LO, 0x90);
    set(MMU_KBASE_HI, 0x7B000);
    expect("an address in segment 1", mmu_address(raw(0x10001234, false, false, 0)), 0x90001234);
    expect("an address in segment 12", mmu_address(raw(0xC0001234, false, false, 0)), 0x70001234);
    expect("an address in segment 11", mmu_address(raw(0xB0000010, false, false, 0)), 0xB0000010);
    expect("the kind in segment 2", mmu_kind(raw(0x20001234, false, false, 0)), 8);
}

/* A miss leaves the slot of the draw in SELECT, the page number and the identification in TLB_HI, and its value and write bit as the
 * cause. No other register changes. */
static void expect_miss(bool write, uint32_t draw, uint32_t slot, uint32_t cause)
{
    const uint32_t after[REGISTERS] = {0, 0, 1, 0, 0, 5, slot, 0x60001u << 6 | 5, 0, 0, cause};
    uint64_t answer;

    start();
    set(MMU_ENABLE, 1);
    set(MMU_CONTEXT, 5);
    answer = raw(0xC0003234, true, write, draw);
    expect("the value of a miss", mmu_value(answer), 8);
    expect("the kind of a miss", mmu_kind(answer), MMU_MISS);
    for (unsigned n = 0; n < REGISTERS; n++)
        expect(places[n].name, mmu_get_word(registers + places[n].at), after[n]);
}

static void try_misses(void)
{
    expect_miss(false, 0, 1, 16);
    expect_miss(true, 3, 49, 17);
}

/* Document 01's table of ENABLE and test mode, for an access that misses. Test mode refuses the served access. */
static void try_modes(void)
{
    enum { MODES = 4, ADDRESS = 0x1234 };
    static const struct {
        uint32_t enable, test;
        bool interrupts, excepted, has_address;
    } modes[MODES] = {{0, 0, false, false, true}, {0, 1, false, true, true}, {1, 0, true, true, false}, {1, 1, false, true, false}};

    memset(tables, 0, sizeof tables);
    for (unsigned n = 0; n < MODES; n++) {
        uint64_t answer;

        start();
        set(MMU_ENABLE, modes[n].enable);
        mmu_put_word(registers + MMU_AT_TEST, modes[n].test);
        answer = raw(ADDRESS, true, false, 0);
        expect("whether it interrupts", mmu_interrupts(answer), modes[n].interrupts);
        expect("whether there was an exception", mmu_excepted(answer), modes[n].excepted);
        expect("the exception's value", mmu_value(answer), modes[n].excepted ? 8 : 0);
        expect("whether there is an address", mmu_has_address(answer), modes[n].has_address);
        expect("the address", mmu_address(answer), modes[n].has_address ? ADDRESS : 0);
        expect("the cause", mmu_get_word(registers + MMU_AT_CAUSE), modes[n].excepted ? 16 : 0);
        expect("a served access's refusal", mmu_refusal(served(ADDRESS, true, false, 0)), modes[n].test != 0 ? 5 : 0);
    }
}

/* One page, the exceptions that are on, and an access. Document 01: "write error = write, not we, we_exc; access violation = user, kernel,
 * acc_exc; invalid page = not valid, inv_exc. The three may come together." With inv_exc off, a page that is not valid is a miss. */

enum { IDENTIFICATION = 5, DIRECTORY = 1, GLOBAL_DIRECTORY = 2, TABLE = 2, GLOBAL_TABLE = 3, VPN = 0x12345, PFN = 0x123, TRIALS = 256 };

struct trial {
    bool we_exc, acc_exc, inv_exc, valid, kernel, we, user, write;
};

static struct trial trial_of(unsigned n)
{
    struct trial trial = {(n & 1) != 0,  (n & 2) != 0,  (n & 4) != 0,  (n & 8) != 0,
                          (n & 16) != 0, (n & 32) != 0, (n & 64) != 0, (n & 128) != 0};

    return trial;
}

/* The kinds in this order: write error, access violation, invalid page, miss. */
enum { KINDS = 4 };
static const uint32_t named_kinds[KINDS] = {MMU_WRITE_ERROR, MMU_ACCESS_VIOLATION, MMU_INVALID_PAGE, MMU_MISS};
static const uint32_t numbered_kinds[KINDS] = {1, 2, 4, 8};

static uint32_t due(const struct trial *trial, const uint32_t kinds[KINDS])
{
    uint32_t sum = 0;

    if (!trial->valid && !trial->inv_exc)
        return kinds[3];
    if (trial->write && !trial->we && trial->we_exc)
        sum += kinds[0];
    if (trial->user && trial->kernel && trial->acc_exc)
        sum += kinds[1];
    if (!trial->valid && trial->inv_exc)
        sum += kinds[2];
    return sum;
}

static void prepare(const struct trial *trial)
{
    memset(tables, 0, sizeof tables);
    put_table_word(IDENTIFICATION, MMU_PRESENT | DIRECTORY);
    put_table_word(mmu_directory_index(DIRECTORY, VPN), MMU_PRESENT | TABLE);
    put_table_word(mmu_leaf_index(TABLE, VPN), MMU_PRESENT | (trial->valid ? MMU_VALID : 0) | (trial->kernel ? MMU_KERNEL : 0) |
                                                   (trial->we ? MMU_WE : 0) | PFN);
    start();
    set(MMU_CTRL, (trial->we_exc ? MMU_WE_EXC : 0) | (trial->acc_exc ? MMU_ACC_EXC : 0) | (trial->inv_exc ? MMU_INV_EXC : 0));
    set(MMU_ENABLE, 1);
    set(MMU_CONTEXT, IDENTIFICATION);
}

static void expect_trial(const struct trial *trial, uint64_t answer)
{
    bool excepted = due(trial, numbered_kinds) != 0;

    expect("whether an access is refused", mmu_refusal(answer), 0);
    expect("an access's value", mmu_value(answer), due(trial, numbered_kinds));
    expect("an access's kind", mmu_kind(answer), due(trial, named_kinds));
    expect("an access's level", mmu_level(answer), 0);
    expect("an access's tree", mmu_in_global_tree(answer), false);
    expect("whether an access is excepted", mmu_excepted(answer), excepted);
    expect("whether an access has an address", mmu_has_address(answer), !excepted);
    expect("an access's address", mmu_address(answer), excepted ? 0 : PFN * MMU_PAGE_BYTES + 0x17);
}

/* The served access loads the page, and then the raw one gives the same. Only the raw one interrupts. */
static void try_kinds(void)
{
    const uint32_t address = VPN * 8192u + 0x17;

    for (unsigned n = 0; n < TRIALS; n++) {
        struct trial trial = trial_of(n);
        uint64_t answer;

        prepare(&trial);
        answer = served(address, trial.user, trial.write, 2);
        expect_trial(&trial, answer);
        expect("a first access's loads", mmu_loads(answer), 1);
        expect("whether a served access interrupts", mmu_interrupts(answer), false);
        answer = raw(address, trial.user, trial.write, 2);
        expect_trial(&trial, answer);
        expect("a raw access's loads", mmu_loads(answer), 0);
        expect("whether a raw access interrupts", mmu_interrupts(answer), mmu_excepted(answer));
    }
}

/* Where walks stop. The words of a row are the global root, the global directory word, the own root, the own directory word and the own
 * leaf; the global leaf is absent. */

enum { STOPS = 12, STOP_WORDS = 5, RESERVED = 1 << 16, OUTSIDE = 0xFFFF };

static const struct {
    uint32_t value, kind, level;
    bool in_global_tree;
    uint32_t words[STOP_WORDS];
} stops[STOPS] = {
    {0x110, MMU_ABSENT, MMU_LEVEL_ROOT, false, {0, 0, 0, 0, 0}},
    {0x110, MMU_ABSENT, MMU_LEVEL_ROOT, false, {MMU_PRESENT | GLOBAL_DIRECTORY, 0, 0, 0, 0}},
    {0x210, MMU_ABSENT, MMU_LEVEL_DIRECTORY, false, {0, 0, MMU_PRESENT | DIRECTORY, 0, 0}},
    {0x210, MMU_ABSENT, MMU_LEVEL_DIRECTORY, false, {MMU_PRESENT | GLOBAL_DIRECTORY, 0, MMU_PRESENT | DIRECTORY, 0, 0}},
    {0x310, MMU_ABSENT, MMU_LEVEL_LEAF, false, {0, 0, MMU_PRESENT | DIRECTORY, MMU_PRESENT | TABLE, 0}},
    {0x310, MMU_ABSENT, MMU_LEVEL_LEAF, false,
     {MMU_PRESENT | GLOBAL_DIRECTORY, MMU_PRESENT | GLOBAL_TABLE, MMU_PRESENT | DIRECTORY, MMU_PRESENT | TABLE, 0}},
    {0x120, MMU_BROKEN, MMU_LEVEL_ROOT, false, {0, 0, MMU_PRESENT, 0, 0}},
    {0x120, MMU_BROKEN, MMU_LEVEL_ROOT, false, {0, 0, MMU_PRESENT | OUTSIDE, 0, 0}},
    {0x220, MMU_BROKEN, MMU_LEVEL_DIRECTORY, false, {0, 0, MMU_PRESENT | DIRECTORY, MMU_PRESENT | RESERVED | TABLE, MMU_PRESENT}},
    {0x1120, MMU_BROKEN, MMU_LEVEL_ROOT, true, {MMU_PRESENT | OUTSIDE, 0, MMU_PRESENT | DIRECTORY, MMU_PRESENT | TABLE, MMU_PRESENT}},
    {0x1120, MMU_BROKEN, MMU_LEVEL_ROOT, true, {MMU_PRESENT | RESERVED | GLOBAL_DIRECTORY, 0, 0, 0, 0}},
    {0x1220, MMU_BROKEN, MMU_LEVEL_DIRECTORY, true,
     {MMU_PRESENT | GLOBAL_DIRECTORY, MMU_PRESENT, MMU_PRESENT | DIRECTORY, MMU_PRESENT | TABLE, MMU_PRESENT}},
};

static void put_stop(const uint32_t words[STOP_WORDS])
{
    memset(tables, 0, sizeof tables);
    put_table_word(MMU_GLOBAL_ROOT, words[0]);
    put_table_word(mmu_directory_index(GLOBAL_DIRECTORY, VPN), words[1]);
    put_table_word(IDENTIFICATION, words[2]);
    put_table_word(mmu_directory_index(DIRECTORY, VPN), words[3]);
    put_table_word(mmu_leaf_index(TABLE, VPN), words[4]);
}

static void try_stops(void)
{
    for (unsigned n = 0; n < STOPS; n++) {
        uint64_t answer;

        put_stop(stops[n].words);
        start();
        set(MMU_ENABLE, 1);
        set(MMU_CONTEXT, IDENTIFICATION);
        answer = served(VPN * 8192u, true, false, 0);
        expect("a walk's value", mmu_value(answer), stops[n].value);
        expect("a walk's kind", mmu_kind(answer), stops[n].kind);
        expect("a walk's level", mmu_level(answer), stops[n].level);
        expect("whether a walk stops in the global tree", mmu_in_global_tree(answer), stops[n].in_global_tree);
        expect("whether a walk's fault is one", mmu_excepted(answer), true);
        expect("whether it has an address", mmu_has_address(answer), false);
        expect("its loads", mmu_loads(answer), 0);
    }
}

/* Four programs share a directory with sixteen pages, which take the sixteen slots of each set. Once the table is gone, as many slots are
 * emptied as were loaded. */
static void try_emptied(uint32_t count)
{
    uint64_t answer;

    memset(tables, 0, sizeof tables);
    start();
    set(MMU_ENABLE, 1);
    put_table_word(mmu_directory_index(DIRECTORY, 0), MMU_PRESENT | TABLE);
    for (uint32_t n = 0; n < count; n++) {
        uint32_t program = n / MMU_SET_SLOTS, vpn = n % MMU_SET_SLOTS;

        put_table_word(program, MMU_PRESENT | DIRECTORY);
        put_table_word(mmu_leaf_index(TABLE, vpn), MMU_PRESENT | MMU_VALID);
        set(MMU_CONTEXT, program);
        expect("the loads of a page", mmu_loads(served(vpn * MMU_PAGE_BYTES, true, false, program)), 1);
    }
    answer = store(mmu_directory_index(DIRECTORY, 0), 0);
    expect_parts(answer);
    expect("the slots emptied by a store", mmu_emptied(answer), count);
    expect("all else in a store's answer", answer >> 32, 0);
}

static void try_stores(void)
{
    expect("the bytes of all slots", MMU_SLOTS * NUMBER_BYTES, MMU_BUFFER_BYTES);
    expect("the slots of all sets", MMU_SETS * MMU_SET_SLOTS, MMU_SLOTS);
    for (uint32_t count = 0; count <= MMU_SLOTS; count++)
        try_emptied(count);
}

/* Each refusal by each call that gives it, as docs/C_INTERFACE.md's table has them. */

static uint64_t raw_with(size_t registers_len, size_t buffer_len, uint32_t draw)
{
    return mmu_raw_access(registers, registers_len, buffer, buffer_len, 0, false, false, draw);
}

static uint64_t served_with(size_t registers_len, size_t buffer_len, size_t tables_len, uint32_t draw)
{
    return mmu_served_access(registers, registers_len, buffer, buffer_len, tables, tables_len, 0, false, false, draw);
}

static uint64_t store_with(size_t registers_len, size_t buffer_len, size_t tables_len, uint32_t index)
{
    return mmu_table_store(registers, registers_len, buffer, buffer_len, tables, tables_len, index, 0);
}

static uint64_t set_with(size_t registers_len, uint32_t number, uint32_t value)
{
    return mmu_guarded_setting(registers, registers_len, number, value);
}

static void try_wrong_lengths(void)
{
    expect("1 of a start", mmu_refusal(mmu_start(registers, R - 1, buffer, B)), MMU_REFUSED_REGISTERS);
    expect("1 of a setting", mmu_refusal(set_with(R - 1, MMU_ENABLE, 1)), MMU_REFUSED_REGISTERS);
    expect("1 of a raw access", mmu_refusal(raw_with(R - 1, B, 0)), MMU_REFUSED_REGISTERS);
    expect("1 of a served access", mmu_refusal(served_with(R - 1, B, T, 0)), MMU_REFUSED_REGISTERS);
    expect("1 of a store", mmu_refusal(store_with(R - 1, B, T, 0)), MMU_REFUSED_REGISTERS);
    expect("2 of a start", mmu_refusal(mmu_start(registers, R, buffer, B - 1)), MMU_REFUSED_BUFFER);
    expect("2 of a raw access", mmu_refusal(raw_with(R, B - 1, 0)), MMU_REFUSED_BUFFER);
    expect("2 of a served access", mmu_refusal(served_with(R, B - 1, T, 0)), MMU_REFUSED_BUFFER);
    expect("2 of a store", mmu_refusal(store_with(R, B - 1, T, 0)), MMU_REFUSED_BUFFER);
    expect("3 of a served access", mmu_refusal(served_with(R, B, T - 4, 0)), MMU_REFUSED_TABLES);
    expect("3 of a store", mmu_refusal(store_with(R, B, T - 4, 0)), MMU_REFUSED_TABLES);
}

/* Registers with bits that they do not have; a start does not look at them. */
static void try_wrong_registers(void)
{
    memset(registers, 0xFF, R);
    expect("1 of a setting by a register", mmu_refusal(set_with(R, MMU_ENABLE, 1)), MMU_REFUSED_REGISTERS);
    expect("1 of a raw access by a register", mmu_refusal(raw_with(R, B, 0)), MMU_REFUSED_REGISTERS);
    expect("1 of a served access by a register", mmu_refusal(served_with(R, B, T, 0)), MMU_REFUSED_REGISTERS);
    expect("1 of a store by a register", mmu_refusal(store_with(R, B, T, 0)), MMU_REFUSED_REGISTERS);
    expect("a start over such registers", mmu_start(registers, R, buffer, B), 0);
}

static void try_wrong_arguments(void)
{
    expect("4 of a raw access", mmu_refusal(raw_with(R, B, MMU_SETS)), MMU_REFUSED_DRAW);
    expect("4 of a served access", mmu_refusal(served_with(R, B, T, MMU_SETS)), MMU_REFUSED_DRAW);
    expect("5 of a setting", mmu_refusal(set_with(R, MMU_CONTEXT, MMU_EMPTY_PAGE_ID)), MMU_REFUSED_SERVICE);
    expect("a setting of the last identification", set_with(R, MMU_CONTEXT, MMU_EMPTY_PAGE_ID - 1), 0);
    mmu_put_word(registers + MMU_AT_TEST, 1);
    expect("5 of a served access", mmu_refusal(served_with(R, B, T, 0)), MMU_REFUSED_SERVICE);
    mmu_put_word(registers + MMU_AT_TEST, 0);
    expect("6 of a store", mmu_refusal(store_with(R, B, T, T / 4)), MMU_REFUSED_INDEX);
    expect("7 of a setting", mmu_refusal(set_with(R, MMU_CONTEXT + 1, 0)), MMU_REFUSED_SETTING);
    expect("7 of a setting by its value", mmu_refusal(set_with(R, MMU_ENABLE, 2)), MMU_REFUSED_SETTING);
}

static void try_refusals(void)
{
    start();
    try_wrong_lengths();
    try_wrong_registers();
    try_wrong_arguments();
}

/* The named lengths are taken, and of all lengths up to one that is too long no other is. */
static void try_lengths(void)
{
    start();
    expect("a store's refusal by the least length", mmu_refusal(store_with(R, B, MMU_TABLE_BYTES_MIN, 0)), 0);
    expect("a store's refusal by the greatest length", mmu_refusal(store_with(R, B, MMU_TABLE_BYTES_MAX, 0)), 0);
    for (size_t length = 0; length <= R + 1; length++)
        expect("a start's refusal by the registers' length", mmu_refusal(mmu_start(registers, length, buffer, B)),
               length == MMU_REGISTER_BYTES ? 0 : 1);
    for (size_t length = 0; length <= B + 1; length++)
        expect("a start's refusal by the buffer's length", mmu_refusal(mmu_start(registers, R, buffer, length)),
               length == MMU_BUFFER_BYTES ? 0 : 2);
    for (size_t length = 0; length <= T + MMU_TABLE_BYTES_STEP; length++) {
        bool good = length >= MMU_TABLE_BYTES_MIN && length <= MMU_TABLE_BYTES_MAX && length % MMU_TABLE_BYTES_STEP == 0;

        expect("a served access's refusal by the tables' length", mmu_refusal(served_with(R, B, length, 0)), good ? 0 : 3);
        expect("a store's refusal by the tables' length", mmu_refusal(store_with(R, B, length, 0)), good ? 0 : 3);
    }
}

int main(void)
{
    try_parts();
    try_widths();
    try_settings();
    try_segments();
    try_misses();
    try_modes();
    try_kinds();
    try_stops();
    try_stores();
    try_refusals();
    try_lengths();
    return verdict();
}
