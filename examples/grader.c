/* A grader's view of a page: it is loaded, aged and given back, and no stale entry answers for it. Then its directory's word goes, and the
 * global root is broken, to show where walks stop.
 *
 * Build, from the root of the repository:
 *   tools/staticlib
 *   gcc -std=c11 -O2 -I include examples/grader.c target/staticlib/libmmu_c.a -o target/grader
 * It prints what it saw, one line a step: examples/grader.lines. */

#include <inttypes.h>
#include <stdio.h>
#include <string.h>

#include "mmu.h"

/* The root of program 5 names directory 1, whose word for page 1 names table 1, which has the page's leaf. */
enum { PROGRAM = 5, DIRECTORY = 1, TABLE = 1, PAGE = 1, FRAME = 0x123, NO_PROGRAM = 63 };

static const uint32_t leaf = MMU_PRESENT | MMU_VALID | MMU_WE | FRAME;
static const uint32_t address = MMU_PAGE_BYTES * PAGE + 0xABC;

struct unit {
    uint8_t registers[MMU_REGISTER_BYTES];
    uint8_t buffer[MMU_BUFFER_BYTES];
    uint8_t tables[MMU_TABLE_BYTES_MAX];
};

static struct unit unit;
static struct unit before;

static void put_table_word(uint32_t index, uint32_t word)
{
    mmu_put_word(unit.tables + 4 * index, word);
}

/* Whether the call was accepted. */
static bool accepted(const char *step, uint64_t answer)
{
    printf("%s: refusal %" PRIu32 "\n", step, mmu_refusal(answer));
    return mmu_refusal(answer) == 0;
}

static bool set(const char *step, uint32_t number, uint32_t value)
{
    return accepted(step, mmu_guarded_setting(unit.registers, sizeof unit.registers, number, value));
}

/* Whether the unit is ready: the tables filled, the start and every setting accepted. */
static bool set_up(void)
{
    put_table_word(PROGRAM, MMU_PRESENT | DIRECTORY);
    put_table_word(mmu_directory_index(DIRECTORY, PAGE), MMU_PRESENT | TABLE);
    put_table_word(mmu_leaf_index(TABLE, PAGE), leaf);
    return accepted("start", mmu_start(unit.registers, sizeof unit.registers, unit.buffer, sizeof unit.buffer)) &&
           set("CONTEXT 5", MMU_CONTEXT, PROGRAM) &&
           set("CTRL 7", MMU_CTRL, MMU_INV_EXC | MMU_ACC_EXC | MMU_WE_EXC) &&
           set("ENABLE 1", MMU_ENABLE, 1);
}

/* The kind of a fault and, where a walk stopped without a leaf, the level and the tree of the word that decided. */
static void print_fault(uint64_t answer)
{
    printf("fault %" PRIu32, mmu_kind(answer));
    if (mmu_level(answer) != 0)
        printf(" at level %" PRIu32 "%s", mmu_level(answer), mmu_in_global_tree(answer) ? " of the global tree" : "");
    printf(", loads %" PRIu32 "%s\n", mmu_loads(answer), mmu_interrupts(answer) ? ", interrupts" : "");
}

static void print_access(const char *step, uint64_t answer)
{
    printf("%s: ", step);
    if (mmu_refusal(answer) != 0)
        printf("refused %" PRIu32 "\n", mmu_refusal(answer));
    else if (mmu_has_address(answer))
        printf("at %08" PRIX32 ", loads %" PRIu32 "\n", mmu_address(answer), mmu_loads(answer));
    else
        print_fault(answer);
}

/* A user's access of the page, served. */
static void served(const char *step, bool write)
{
    print_access(step, mmu_served_access(unit.registers, sizeof unit.registers, unit.buffer, sizeof unit.buffer,
                                         unit.tables, sizeof unit.tables, address, true, write, 2));
}

/* A user's read of the page by the buffer alone, on a copy of the registers: the unit stays as it is. */
static void raw(const char *step)
{
    uint8_t copy[MMU_REGISTER_BYTES];

    memcpy(copy, unit.registers, sizeof copy);
    print_access(step, mmu_raw_access(copy, sizeof copy, unit.buffer, sizeof unit.buffer, address, true, false, 2));
}

static void store_word(const char *step, uint32_t index, uint32_t word)
{
    uint64_t answer = mmu_table_store(unit.registers, sizeof unit.registers, unit.buffer, sizeof unit.buffer,
                                      unit.tables, sizeof unit.tables, index, word);

    printf("%s: refusal %" PRIu32 ", slots emptied %" PRIu32 "\n", step, mmu_refusal(answer), mmu_emptied(answer));
}

static void store_leaf(const char *step, uint32_t word)
{
    store_word(step, mmu_leaf_index(TABLE, PAGE), word);
}

static void print_cause(const char *step)
{
    uint32_t page_and_program = mmu_get_word(unit.registers + MMU_AT_TLB_HI);
    uint32_t cause = mmu_get_word(unit.registers + MMU_AT_CAUSE);

    printf("%s: page %" PRIu32 ", program %" PRIu32 ", value %" PRIu32 ", %s, slot %" PRIu32 "\n", step,
           page_and_program >> 6, page_and_program & 63, cause >> 1, (cause & 1) != 0 ? "write" : "read",
           mmu_get_word(unit.registers + MMU_AT_SELECT));
}

/* What a refused call says, and whether it left the unit as it was before. */
static void print_refused(const char *step, uint64_t answer)
{
    printf("%s: refusal %" PRIu32 ", bytes %s\n", step, mmu_refusal(answer),
           memcmp(&before, &unit, sizeof unit) == 0 ? "as before" : "changed");
}

/* An identification that no program has. */
static void refused_setting(const char *step)
{
    before = unit;
    print_refused(step, mmu_guarded_setting(unit.registers, sizeof unit.registers, MMU_CONTEXT, NO_PROGRAM));
}

/* A buffer of the wrong length, in a store that would have brought the page back. */
static void refused_store(const char *step)
{
    before = unit;
    print_refused(step, mmu_table_store(unit.registers, sizeof unit.registers, unit.buffer, sizeof unit.buffer - 1,
                                        unit.tables, sizeof unit.tables, mmu_leaf_index(TABLE, PAGE), leaf));
}

int main(void)
{
    if (!set_up())
        return 1;
    refused_setting("CONTEXT 63");
    served("first read, a miss", false);
    served("second read, a hit", false);
    served("write", true);
    raw("raw read");
    store_leaf("page aged, valid 0", leaf & ~MMU_VALID);
    served("read of the aged page", false);
    print_cause("cause");
    served("read again", false);
    store_leaf("page touched, valid 1", leaf);
    served("write to it", true);
    store_leaf("page given back, present 0", leaf & ~MMU_PRESENT);
    served("read of the page given back", false);
    raw("raw read");
    refused_store("store with a buffer of 511 bytes");
    served("read after it", false);
    store_word("directory without a table", mmu_directory_index(DIRECTORY, PAGE), 0);
    served("read under it", false);
    store_word("global root with number 0", MMU_GLOBAL_ROOT, MMU_PRESENT);
    served("read after that", false);
    return 0;
}
