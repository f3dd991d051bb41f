/* Makes the C calls of the memory unit as standard input asks; tests/PROTOCOL.md says how. */

#include <stdbool.h>
#include <stddef.h>
#include <stdint.h>
#include <stdio.h>
#include <stdlib.h>

#include "mmu.h"

enum { RAW_ACCESS, SERVED_ACCESS, TABLE_STORE, START, GUARDED_SETTING, KINDS };
enum { REGISTERS, BUFFER, TABLES, RUNS };
enum { HEAD_WORDS = 8, FIRST_LENGTH = 5, BLOCK = 1 << 18 };

static const uint32_t most_bytes[RUNS] = {64, 640, 131072};

struct run {
    uint8_t *bytes;
    size_t length;
};

struct request {
    uint32_t kind;
    uint32_t arguments[4];
    struct run runs[RUNS];
};

static uint32_t word_of(const uint8_t *four)
{
    return (uint32_t)four[0] << 24 | (uint32_t)four[1] << 16 | (uint32_t)four[2] << 8 | four[3];
}

/* Whether the next request's first words are there and in order; *ended where the input ends before them. */
static bool read_head(struct request *request, bool *ended)
{
    uint8_t head[4 * HEAD_WORDS];
    size_t length = fread(head, 1, sizeof head, stdin);

    *ended = length == 0 && !ferror(stdin);
    if (length != sizeof head)
        return false;
    request->kind = word_of(head);
    for (size_t n = 0; n < 4; n++)
        request->arguments[n] = word_of(head + 4 + 4 * n);
    for (size_t n = 0; n < RUNS; n++) {
        uint32_t bytes = word_of(head + 4 * (FIRST_LENGTH + n));

        if (bytes > most_bytes[n])
            return false;
        request->runs[n] = (struct run){NULL, bytes};
    }
    return request->kind < KINDS;
}

/* Each run has exactly its length, so that a checker sees every access outside it. */
static bool read_runs(struct request *request)
{
    for (size_t n = 0; n < RUNS; n++) {
        struct run *run = &request->runs[n];

        run->bytes = malloc(run->length > 0 ? run->length : 1);
        if (run->bytes == NULL || fread(run->bytes, 1, run->length, stdin) != run->length)
            return false;
    }
    return true;
}

static void free_runs(struct request *request)
{
    for (size_t n = 0; n < RUNS; n++)
        free(request->runs[n].bytes);
}

static uint64_t make_call(struct request *request)
{
    struct run registers = request->runs[REGISTERS];
    struct run buffer = request->runs[BUFFER];
    struct run tables = request->runs[TABLES];
    const uint32_t *given = request->arguments;

    switch (request->kind) {
    case RAW_ACCESS:
        return mmu_raw_access(registers.bytes, registers.length, buffer.bytes, buffer.length,
                              given[0], given[1] != 0, given[2] != 0, given[3]);
    case SERVED_ACCESS:
        return mmu_served_access(registers.bytes, registers.length, buffer.bytes, buffer.length,
                                 tables.bytes, tables.length,
                                 given[0], given[1] != 0, given[2] != 0, given[3]);
    case TABLE_STORE:
        return mmu_table_store(registers.bytes, registers.length, buffer.bytes, buffer.length,
                               tables.bytes, tables.length, given[0], given[1]);
    case START:
        return mmu_start(registers.bytes, registers.length, buffer.bytes, buffer.length);
    default:
        return mmu_guarded_setting(registers.bytes, registers.length, given[0], given[1]);
    }
}

static bool write_answer(const struct request *request, uint64_t answer)
{
    uint8_t eight[8];

    for (size_t n = 0; n < sizeof eight; n++)
        eight[n] = (uint8_t)(answer >> (56 - 8 * n));
    if (fwrite(eight, 1, sizeof eight, stdout) != sizeof eight)
        return false;
    for (size_t n = 0; n < RUNS; n++) {
        const struct run *run = &request->runs[n];

        if (fwrite(run->bytes, 1, run->length, stdout) != run->length)
            return false;
    }
    return true;
}

int main(void)
{
    struct request request;
    bool ended = false;

    setvbuf(stdin, NULL, _IOFBF, BLOCK);
    setvbuf(stdout, NULL, _IOFBF, BLOCK);
    while (read_head(&request, &ended)) {
        bool good = read_runs(&request) && write_answer(&request, make_call(&request));

        free_runs(&request);
        if (!good)
            return 1;
    }
    return ended && fflush(stdout) == 0 ? 0 : 1;
}
