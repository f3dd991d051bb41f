/* The memory unit of the ETRAX 100LX for a host in C or C++; docs/C_INTERFACE.md tells how it is used. */

#ifndef MMU_H
#define MMU_H

#include <stdbool.h>
#include <stddef.h>
#include <stdint.h>

#ifdef __cplusplus
extern "C" {
#endif

/* The five calls. */

/* Makes all registers 0 and every slot empty (its set's number as vpn15, page_id 63, all else 0), whatever the bytes held before. Bytes of
 * zero are no empty buffer: each buffer needs this call before all others. */
uint64_t mmu_start(uint8_t *registers, size_t registers_len,
                   uint8_t *buffer, size_t buffer_len);

/* Gives one of the registers KSEG to CONTEXT a value that it takes; CONTEXT takes 0 to 62. */
uint64_t mmu_guarded_setting(uint8_t *registers, size_t registers_len,
                             uint32_t number, uint32_t value);

/* One access by the registers and the buffer alone; it may write the registers. */
uint64_t mmu_raw_access(uint8_t *registers, size_t registers_len,
                        const uint8_t *buffer, size_t buffer_len,
                        uint32_t address, bool user, bool write, uint32_t draw);

/* One access that on a miss walks the tables, loads the leaf and tries again; it may write the registers and one slot. */
uint64_t mmu_served_access(uint8_t *registers, size_t registers_len,
                           uint8_t *buffer, size_t buffer_len,
                           const uint8_t *tables, size_t tables_len,
                           uint32_t address, bool user, bool write, uint32_t draw);

/* Writes one word of the tables, and empties every slot that they no longer back. */
uint64_t mmu_table_store(const uint8_t *registers, size_t registers_len,
                         uint8_t *buffer, size_t buffer_len,
                         uint8_t *tables, size_t tables_len,
                         uint32_t index, uint32_t value);

/* The lengths of the runs. */

#define MMU_REGISTER_BYTES 44     /* The registers have eleven words of four bytes. */
#define MMU_BUFFER_BYTES 512      /* The buffer has 64 slots of eight bytes. */
#define MMU_TABLE_BYTES_MIN 4096  /* The tables have at least this many bytes. */
#define MMU_TABLE_BYTES_MAX 65536 /* The tables have at most this many bytes. */
#define MMU_TABLE_BYTES_STEP 4096 /* The tables' length is a multiple of this. */
#define MMU_SLOTS 64              /* The buffer has four sets of sixteen slots. */
#define MMU_SETS 4                /* The buffer has this many sets, and a page has one slot in each. */
#define MMU_SET_SLOTS 16          /* A set has this many slots. */

/* Pages, and how they stand in the tables. */

#define MMU_PAGE_BYTES 8192u     /* A page and a frame have this many bytes. */
#define MMU_DIRECTORY_WORDS 512u /* Directory d is the words 512d to 512d + 511 of the tables. */
#define MMU_TABLE_WORDS 1024u    /* Table t is the words 1024t to 1024t + 1023 of the tables. */
#define MMU_GLOBAL_ROOT 63u      /* This word is the global root; the words 0 to 62 are the roots of the identifications 0 to 62. */

/* The numbers of the registers that mmu_guarded_setting sets. */

#define MMU_KSEG 0     /* It takes 0 to 0xFFFF. */
#define MMU_CTRL 1     /* It takes 0 to 7, its three bits added up. */
#define MMU_ENABLE 2   /* It takes 0 and 1. */
#define MMU_KBASE_LO 3 /* It takes any 32 bits. */
#define MMU_KBASE_HI 4 /* It takes any 32 bits. */
#define MMU_CONTEXT 5  /* It takes 0 to 62. */

/* The byte at which each register begins. */

#define MMU_AT_KSEG 0      /* Bit n of the 16 makes segment n linear in supervisor mode. */
#define MMU_AT_CTRL 4      /* Three bits enable the exceptions that a hit can raise. */
#define MMU_AT_ENABLE 8    /* One bit switches translation on. */
#define MMU_AT_KBASE_LO 12 /* Four bits each are the bases of segments 0 to 7. */
#define MMU_AT_KBASE_HI 16 /* Four bits each are the bases of segments 8 to 15. */
#define MMU_AT_CONTEXT 20  /* Six bits are the identification of the program that runs. */
#define MMU_AT_SELECT 24   /* Six bits name the selected slot. */
#define MMU_AT_TLB_HI 28   /* The page number in bits 24 to 6 and the identification in bits 5 to 0 are the last exception's. */
#define MMU_AT_TLB_LO 32   /* These are the 23 bits last written to TLB_LO. */
#define MMU_AT_TEST 36     /* One bit switches the test mode on. */
#define MMU_AT_CAUSE 40    /* The last exception's value stands in bits 4 to 1 and its write bit in bit 0. */

/* The bits of CTRL. */

#define MMU_WE_EXC 1u  /* A write to a page without write enable is a write error. */
#define MMU_ACC_EXC 2u /* A user's access to a kernel page is an access violation. */
#define MMU_INV_EXC 4u /* An access to a page that is not valid is an invalid page. */

/* The bits of a table word. */

#define MMU_PRESENT 0x80000000u /* A root, a directory word or a leaf is there. */
#define MMU_VALID 0x40000000u   /* The leaf's page is valid. */
#define MMU_KERNEL 0x20000000u  /* The leaf's page is the kernel's. */
#define MMU_WE 0x10000000u      /* The leaf's page may be written. */

/* The kinds of exceptions and faults, the first three added up where they come together; only a served access gives the last two. */

#define MMU_WRITE_ERROR 1u      /* The page may not be written. */
#define MMU_ACCESS_VIOLATION 2u /* The page is the kernel's. */
#define MMU_INVALID_PAGE 4u     /* The page is not valid. */
#define MMU_MISS 8u             /* Raw: no entry hit. Served: the page's leaf has valid 0, and inv_exc is off. */
#define MMU_ABSENT 16u          /* The walk ended at a word that is not present. */
#define MMU_BROKEN 32u          /* The walk ended at a present word that is no good root or directory word. */

/* The levels at which a walk stops. */

#define MMU_LEVEL_ROOT 1u      /* The word is a root. */
#define MMU_LEVEL_DIRECTORY 2u /* The word stands in a directory. */
#define MMU_LEVEL_LEAF 3u      /* The word stands in a table. */

/* The numbers of refusals, after each of them the calls that give it. A call gives the first that applies, from the top. Numbers from 8 on
 * belong to other parts of the unit, and no call of this header gives them. */

#define MMU_REFUSED_REGISTERS 1u /* Every call: the registers are not 44 bytes, or one exceeds its bits; a start judges only the length. */
#define MMU_REFUSED_BUFFER 2u    /* Start, both accesses, store: the buffer is not 512 bytes. */
#define MMU_REFUSED_TABLES 3u    /* Served access, store: the tables are too short, too long, or no multiple of 4,096 bytes. */
#define MMU_REFUSED_DRAW 4u      /* Both accesses: the draw is above 3. */
#define MMU_REFUSED_SERVICE 5u   /* Setting: CONTEXT is to be above 62. Served access: CONTEXT is 63, or test mode is on. */
#define MMU_REFUSED_INDEX 6u     /* Store: the tables have no word of this index. */
#define MMU_REFUSED_SETTING 7u   /* Setting: the number is none of 0 to 5, or the value exceeds the register's bits. */

/* The lowest bit of each field of an entry. */

#define MMU_ENTRY_PFN_BIT 0      /* 19 bits are the pfn, the number of the page's frame. */
#define MMU_ENTRY_WE_BIT 19      /* One bit says that the page may be written. */
#define MMU_ENTRY_KERNEL_BIT 20  /* One bit says that the page is the kernel's. */
#define MMU_ENTRY_VALID_BIT 21   /* One bit says that the page is valid. */
#define MMU_ENTRY_GLOBAL_BIT 22  /* One bit says that the entry answers for every identification. */
#define MMU_ENTRY_PAGE_ID_BIT 23 /* Six bits are the identification under which the entry was loaded. */
#define MMU_ENTRY_VPN15_BIT 29   /* 15 bits are the page's vpn without its low four bits. */

#define MMU_EMPTY_PAGE_ID 63u /* An empty slot has this page_id, and no program has it. */

/* The lowest bit of each part of an answer. */

#define MMU_ADDRESS_BIT 0      /* 32 bits are the address of an access. */
#define MMU_EMPTIED_BIT 0      /* 32 bits are the slots emptied by a store. */
#define MMU_VALUE_BIT 32       /* 16 bits are the value of the exception or fault: its kind, level and tree. */
#define MMU_KIND_BIT 32        /* Eight bits are its kind. */
#define MMU_LEVEL_BIT 40       /* Four bits are the level at which a walk stopped. */
#define MMU_GLOBAL_TREE_BIT 44 /* One bit says that it stopped in the global tree. */
#define MMU_LOADS_BIT 48       /* Four bits are the entries loaded. */
#define MMU_HAS_ADDRESS_BIT 52 /* One bit says that there is an address. */
#define MMU_INTERRUPTS_BIT 53  /* One bit says that a raw access interrupts. */
#define MMU_EXCEPTED_BIT 54    /* One bit says that there was an exception or fault. */
#define MMU_REFUSAL_BIT 56     /* Eight bits are the refusal's number. */

/* The parts of an answer. */

/* The refusal's number, or 0 for an accepted call. */
static inline uint32_t mmu_refusal(uint64_t answer)
{
    return (uint32_t)(answer >> MMU_REFUSAL_BIT);
}

/* Whether the access has an address. */
static inline bool mmu_has_address(uint64_t answer)
{
    return (answer >> MMU_HAS_ADDRESS_BIT & 1u) != 0;
}

/* The physical address of an access that has one. */
static inline uint32_t mmu_address(uint64_t answer)
{
    return (uint32_t)(answer >> MMU_ADDRESS_BIT);
}

/* Whether there was an exception (raw access) or a fault (served access), which may have value 0. */
static inline bool mmu_excepted(uint64_t answer)
{
    return (answer >> MMU_EXCEPTED_BIT & 1u) != 0;
}

/* The value of the exception or fault, which is 0 where several entries hit and where there was none.
 *
 * An exception of value 0 usually means a buffer that was never started. After mmu_start, while start, served accesses, stores and settings
 * alone write registers, buffer and tables, no two entries hit under any identification from 0 to 62. */
static inline uint32_t mmu_value(uint64_t answer)
{
    return (uint32_t)(answer >> MMU_VALUE_BIT & 0xFFFFu);
}

/* The kind of the exception or fault: the value without level and tree. */
static inline uint32_t mmu_kind(uint64_t answer)
{
    return (uint32_t)(answer >> MMU_KIND_BIT & 0xFFu);
}

/* The level of the word at which an absent or broken walk stopped, and 0 for every other answer. */
static inline uint32_t mmu_level(uint64_t answer)
{
    return (uint32_t)(answer >> MMU_LEVEL_BIT & 15u);
}

/* Whether that word stood in the global tree. */
static inline bool mmu_in_global_tree(uint64_t answer)
{
    return (answer >> MMU_GLOBAL_TREE_BIT & 1u) != 0;
}

/* Whether a raw access interrupts; every other call says no. */
static inline bool mmu_interrupts(uint64_t answer)
{
    return (answer >> MMU_INTERRUPTS_BIT & 1u) != 0;
}

/* How many entries a served access loaded, 0 or 1. */
static inline uint32_t mmu_loads(uint64_t answer)
{
    return (uint32_t)(answer >> MMU_LOADS_BIT & 15u);
}

/* How many slots a store emptied. */
static inline uint32_t mmu_emptied(uint64_t answer)
{
    return (uint32_t)(answer >> MMU_EMPTIED_BIT);
}

/* Words and numbers in bytes, most significant first. */

/* The word that begins at this byte, as registers + MMU_AT_CAUSE or tables + 4 * index. */
static inline uint32_t mmu_get_word(const uint8_t *bytes)
{
    return (uint32_t)bytes[0] << 24 | (uint32_t)bytes[1] << 16 | (uint32_t)bytes[2] << 8 | bytes[3];
}

/* The number of 64 bits that begins at this byte, as buffer + 8 * slot. */
static inline uint64_t mmu_get_number(const uint8_t *bytes)
{
    return (uint64_t)mmu_get_word(bytes) << 32 | mmu_get_word(bytes + 4);
}

/* Writes the word that begins at this byte.
 *
 * It is for filling the tables before the start. From the start on the tables are written by mmu_table_store alone and settings are made
 * by mmu_guarded_setting alone: what is proved of whole sequences of calls speaks of these. The registers' bytes are only read, by
 * mmu_get_word. */
static inline void mmu_put_word(uint8_t *bytes, uint32_t word)
{
    bytes[0] = (uint8_t)(word >> 24);
    bytes[1] = (uint8_t)(word >> 16);
    bytes[2] = (uint8_t)(word >> 8);
    bytes[3] = (uint8_t)word;
}

/* Where a page stands. */

/* The vpn of an address: the number of its page, 19 bits. */
static inline uint32_t mmu_vpn_of(uint32_t address)
{
    return address / MMU_PAGE_BYTES;
}

/* The index of a page's word in a directory. */
static inline uint32_t mmu_directory_index(uint32_t directory, uint32_t vpn)
{
    return MMU_DIRECTORY_WORDS * directory + vpn / MMU_TABLE_WORDS;
}

/* The index of a page's leaf in a table. */
static inline uint32_t mmu_leaf_index(uint32_t table, uint32_t vpn)
{
    return MMU_TABLE_WORDS * table + vpn % MMU_TABLE_WORDS;
}

/* The slot of a page in a set, 0 to 3. */
static inline uint32_t mmu_slot_of(uint32_t set, uint32_t vpn)
{
    return MMU_SET_SLOTS * set + vpn % MMU_SET_SLOTS;
}

/* The slots of the buffer, 0 to 63. A host only reads them: the calls alone write the buffer. */

/* The fields of an entry. */
struct mmu_entry {
    uint32_t vpn15;   /* The page's vpn without its low four bits. */
    uint32_t page_id; /* The identification under which the entry was loaded. */
    bool global;      /* The entry answers for every identification. */
    bool valid;       /* The page is valid. */
    bool kernel;      /* The page is the kernel's. */
    bool we;          /* The page may be written. */
    uint32_t pfn;     /* The number of the page's frame. */
};

/* The entry in a slot. What the slot holds above the entry's 44 bits is ignored. */
static inline struct mmu_entry mmu_slot_entry(const uint8_t *buffer, uint32_t slot)
{
    uint64_t number = mmu_get_number(buffer + 8 * slot);
    struct mmu_entry entry;

    entry.vpn15 = (uint32_t)(number >> MMU_ENTRY_VPN15_BIT & 0x7FFFu);
    entry.page_id = (uint32_t)(number >> MMU_ENTRY_PAGE_ID_BIT & 0x3Fu);
    entry.global = (number >> MMU_ENTRY_GLOBAL_BIT & 1u) != 0;
    entry.valid = (number >> MMU_ENTRY_VALID_BIT & 1u) != 0;
    entry.kernel = (number >> MMU_ENTRY_KERNEL_BIT & 1u) != 0;
    entry.we = (number >> MMU_ENTRY_WE_BIT & 1u) != 0;
    entry.pfn = (uint32_t)(number >> MMU_ENTRY_PFN_BIT & 0x7FFFFu);
    return entry;
}

/* Whether a slot is empty: its set's number as vpn15, page_id 63, all else 0. */
static inline bool mmu_slot_empty(const uint8_t *buffer, uint32_t slot)
{
    struct mmu_entry entry = mmu_slot_entry(buffer, slot);

    return entry.vpn15 == slot / MMU_SET_SLOTS && entry.page_id == MMU_EMPTY_PAGE_ID &&
           !entry.global && !entry.valid && !entry.kernel && !entry.we && entry.pfn == 0;
}

/* The vpn for which a slot that is not empty answers. Its low four bits are the slot's, and no entry stores them. */
static inline uint32_t mmu_slot_vpn(const uint8_t *buffer, uint32_t slot)
{
    return MMU_SET_SLOTS * mmu_slot_entry(buffer, slot).vpn15 + slot % MMU_SET_SLOTS;
}

#ifdef __cplusplus
}
#endif

#endif
