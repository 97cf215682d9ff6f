/* Calls the library through its C header on the bench list of 01, on jobs of versions 2 and 3, and with an index. */
#include "handshake.h"

#include <stdio.h>
#include <stdlib.h>
#include <string.h>

/* A slot: 4 places, 16 registers and 8 variables of two bytes each, and for each thread a count and eight entries of three bytes. ROOM is the
 * bench program's number of slots. */
enum { SLOT = 152, REGISTERS = 4, MEMORY = REGISTERS + 32, BUFFERS = MEMORY + 16, ENTRY = 3, BUFFER = 1 + 8 * ENTRY, ROOM = 400 };
_Static_assert(BUFFERS + 4 * BUFFER == SLOT, "the parts are the slot");

static int checks = 0;

#define CHECK(holds)                                                                     \
    do {                                                                                 \
        checks++;                                                                        \
        if (!(holds)) {                                                                  \
            fprintf(stderr, "%s:%d: does not hold: %s\n", __FILE__, __LINE__, #holds);   \
            exit(1);                                                                     \
        }                                                                                \
    } while (0)

/* P1 of 01 as it stands there, and the places in it that the other cases change. */
static const uint8_t P1[] = {0x00, 0x2B, 0x01, 0x01, 0x01, 0x02, 0x02, 0x00, 0x00, 0x02, 0x05, 0x00, 0x00, 0x01, 0x03,
                             0x00, 0x01, 0x00, 0x02, 0x05, 0x00, 0x01, 0x01, 0x03, 0x00, 0x00, 0x00, 0x00, 0x04, 0x01,
                             0x00, 0x00, 0x02, 0x01, 0x01, 0x00, 0x02, 0x02, 0x00, 0x00, 0x00, 0x02, 0x01, 0x00, 0x00};
enum { VERSION = 2, MODEL = 3, CAPACITY = 4, THREADS = 5, VARIABLES = 6, VALUES = 7, FLAG = 27, K = 28 };

/* P10: TSO, C 1, one thread with x = 1 and x = 2; goal place 0. */
static const uint8_t P10[] = {0x00, 0x15, 0x01, 0x01, 0x01, 0x01, 0x01, 0x00, 0x02, 0x05, 0x00, 0x00,
                              0x01, 0x05, 0x00, 0x00, 0x02, 0x00, 0x01, 0x01, 0x00, 0x00, 0x00};

/* P9: P1 with FENCE between store and load, goal places 3. */
static const uint8_t P9[] = {0x00, 0x33, 0x01, 0x01, 0x01, 0x02, 0x02, 0x00, 0x00, 0x03, 0x05, 0x00, 0x00, 0x01, 0x06, 0x00, 0x00, 0x00,
                             0x03, 0x00, 0x01, 0x00, 0x03, 0x05, 0x00, 0x01, 0x01, 0x06, 0x00, 0x00, 0x00, 0x03, 0x00, 0x00, 0x00, 0x00,
                             0x04, 0x01, 0x00, 0x00, 0x03, 0x01, 0x01, 0x00, 0x03, 0x02, 0x00, 0x00, 0x00, 0x02, 0x01, 0x00, 0x00};

/* TSO, C 2, T 3, V 2: thread 0 stores to x, y and x, thread 1 stores to x and comes to a FENCE, thread 2 has no instructions; goal place 0
 * of thread 0. With 7 at BARRIER the FENCE is an XCHG of register 0 and x. */
static const uint8_t THREE[] = {0x00, 0x24, 0x01, 0x01, 0x02, 0x03, 0x02, 0x00, 0x00, 0x03, 0x05, 0x00, 0x00, 0x01, 0x05, 0x00, 0x01, 0x01, 0x05,
                                0x00, 0x00, 0x01, 0x02, 0x05, 0x00, 0x00, 0x01, 0x06, 0x00, 0x00, 0x00, 0x00, 0x00, 0x01, 0x01, 0x00, 0x00, 0x00};
enum { BARRIER = 27, SC = 0, TSO = 1, PSO = 2 };

/* jobs/parked-store-sc: in thread 0 a JMP leads past a store and a load; its last JMP goes to place 5, and with 1 at BACK to the store. */
static const uint8_t PARKED[] = {0x00, 0x57, 0x01, 0x00, 0x00, 0x02, 0x02, 0x00, 0x00, 0x0B, 0x09, 0x00, 0x05, 0x00, 0x05, 0x00, 0x00, 0x01,
                                 0x03, 0x00, 0x01, 0x00, 0x08, 0x00, 0x02, 0x01, 0x09, 0x00, 0x09, 0x00, 0x05, 0x00, 0x00, 0x01, 0x06, 0x00,
                                 0x00, 0x00, 0x03, 0x00, 0x01, 0x00, 0x08, 0x00, 0x07, 0x01, 0x05, 0x00, 0x00, 0x00, 0x09, 0x00, 0x05, 0x00,
                                 0x06, 0x05, 0x00, 0x01, 0x01, 0x06, 0x00, 0x00, 0x00, 0x03, 0x00, 0x00, 0x00, 0x08, 0x00, 0x05, 0x01, 0x09,
                                 0x00, 0x04, 0x00, 0x05, 0x00, 0x01, 0x00, 0x01, 0x02, 0x01, 0x00, 0x00, 0x09, 0x01, 0x01, 0x00, 0x04};
enum { BACK = 52 };

/* Version 2, PSO, C 2, jobs/message-passing-wfence-pso: thread 0 stores to x and y with a WFENCE between, thread 1 loads y and then x; the goal
 * is that it sees the new y and the old x. With 2 at BETWEEN the WFENCE is an ADD of 0. */
static const uint8_t PASSING[] = {0x00, 0x2B, 0x02, 0x02, 0x02, 0x02, 0x02, 0x00, 0x00, 0x03, 0x05, 0x00, 0x00, 0x01, 0x0B,
                                  0x00, 0x00, 0x00, 0x05, 0x00, 0x01, 0x01, 0x02, 0x03, 0x00, 0x01, 0x00, 0x03, 0x01, 0x00,
                                  0x00, 0x00, 0x03, 0x01, 0x01, 0x00, 0x02, 0x02, 0x01, 0x00, 0x01, 0x02, 0x01, 0x01, 0x00};
enum { BETWEEN = 14 };

/* Version 2, PSO, C 3, V 3, one thread: x = 1, WFENCE, WFENCE, y = 2, x = 3, WFENCE, CMPX r0 x 5, CMPX r0 x 7; goal place 0. */
static const uint8_t GROUPS[] = {0x00, 0x2F, 0x02, 0x02, 0x03, 0x01, 0x03, 0x00, 0x00, 0x00, 0x08, 0x05, 0x00, 0x00, 0x01, 0x0B, 0x00,
                                 0x00, 0x00, 0x0B, 0x00, 0x00, 0x00, 0x05, 0x00, 0x01, 0x02, 0x05, 0x00, 0x00, 0x03, 0x0B, 0x00, 0x00,
                                 0x00, 0x0A, 0x00, 0x00, 0x05, 0x0A, 0x00, 0x00, 0x07, 0x00, 0x01, 0x01, 0x00, 0x00, 0x00};
enum { CLAUSE = 45 };

/* Version 2, SC, V 1, one thread: CMPX r0 x 5, CMPX r0 x 7, CMPX r0 x 9; goal x = 9. */
static const uint8_t COMPARING[] = {0x00, 0x19, 0x02, 0x00, 0x00, 0x01, 0x01, 0x00, 0x03, 0x0A, 0x00, 0x00, 0x05, 0x0A,
                                    0x00, 0x00, 0x07, 0x0A, 0x00, 0x00, 0x09, 0x00, 0x01, 0x03, 0x00, 0x00, 0x09};

/* P1 in version 3, written by hand, and the places in it that the cases change; ITEM is the size of an instruction or a clause. */
static const uint8_t WIDE[] = {0x00, 0x35, 0x03, 0x01, 0x01, 0x02, 0x02, 0x00, 0x00, 0x00, 0x00, 0x02, 0x05, 0x00, 0x00, 0x00, 0x01, 0x03, 0x00,
                               0x01, 0x00, 0x00, 0x02, 0x05, 0x00, 0x01, 0x00, 0x01, 0x03, 0x00, 0x00, 0x00, 0x00, 0x00, 0x04, 0x01, 0x00, 0x00,
                               0x00, 0x02, 0x01, 0x01, 0x00, 0x00, 0x02, 0x02, 0x00, 0x00, 0x00, 0x00, 0x02, 0x01, 0x00, 0x00, 0x00};
enum { WIDE_INSTRUCTION = 12, WIDE_FLAG = 33, WIDE_K = 34, WIDE_CLAUSE = 35, ITEM = 5 };

/* Puts the bytes that the text says in hex, and gives their number. */
static size_t put(uint8_t *at, const char *hex) {
    size_t count = 0;
    char *end;
    for (; *hex != 0; hex = end) at[count++] = (uint8_t)strtoul(hex, &end, 16);
    return count;
}

typedef struct {
    size_t size;
    uint8_t bytes[160];
} Job;

static void put_length(Job *job) { job->bytes[0] = (uint8_t)((job->size - 2) / 256), job->bytes[1] = (uint8_t)((job->size - 2) % 256); }

/* A job by what stands behind its length, in hex: all up to the last thread's end, and the goal. */
static Job file(const char *program, const char *goal) {
    Job job = {2, {0}};
    job.size += put(job.bytes + job.size, program);
    job.size += put(job.bytes + job.size, goal);
    put_length(&job);
    return job;
}

/* The forms of one job: a version, and by what its values are multiplied in the high byte and in the low one. All are but 0 to 15, so none
 * wraps; in the fourth form the low bytes are alike, in the last neither byte is. */
typedef struct {
    uint8_t version, high, low;
} Form;
static const Form FORMS[] = {{1, 0, 1}, {2, 0, 1}, {3, 0, 1}, {3, 1, 0}, {3, 16, 3}};
enum { FORM_COUNT = sizeof FORMS / sizeof FORMS[0], FIRST_WIDE = 2 };
static Form form;

/* A value in the present form, in two bytes as a slot and a file of version 3 have it. */
static void put_value(uint8_t *at, uint8_t value) { at[0] = (uint8_t)(form.high * value), at[1] = (uint8_t)(form.low * value); }

/* Sets a pending store in a slot. */
static void put_entry(uint8_t *slot, size_t thread, size_t entry, uint8_t variable, uint8_t value) {
    uint8_t *at = slot + BUFFERS + BUFFER * thread + 1 + ENTRY * entry;
    at[0] = variable;
    put_value(at + 1, value);
}

/* The next item of four bytes, with its last byte as two: a value, or in a clause of kind 1 a place. */
static void widen(Job *job, const uint8_t **from, int is_place) {
    uint8_t *to = job->bytes + job->size, last = (*from)[3];
    memcpy(to, *from, 3);
    if (is_place)
        to[3] = 0, to[4] = last;
    else
        put_value(to + 3, last);
    job->size += ITEM, *from += 4;
}

/* An accepted file of version 1 or 2 in the present form. */
static Job formed(const uint8_t *narrow, size_t size) {
    Job job = {size, {0}};
    const uint8_t *from = narrow + VALUES;
    if (form.version < 3) {
        memcpy(job.bytes, narrow, size);
        job.bytes[VERSION] = form.version;
        return job;
    }
    memcpy(job.bytes, narrow, VALUES);
    job.bytes[VERSION] = form.version, job.size = VALUES;
    for (size_t v = 0; v < narrow[VARIABLES]; v++, job.size += 2) put_value(job.bytes + job.size, *from++);
    for (size_t t = 0; t < narrow[THREADS]; t++) {
        uint8_t n = *from++;
        for (job.bytes[job.size++] = n; n > 0; n--) widen(&job, &from, 0);
    }
    job.bytes[job.size++] = *from++;
    uint8_t clauses = *from++;
    for (job.bytes[job.size++] = clauses; clauses > 0; clauses--) widen(&job, &from, from[0] == 1);
    put_length(&job);
    return job;
}

static int answer_is(const uint64_t answer[4], uint64_t a, uint64_t b, uint64_t c, uint64_t d) {
    return answer[0] == a && answer[1] == b && answer[2] == c && answer[3] == d;
}

/* How many elements stand before and behind each lent buffer: some, to see that they keep their contents; then none, so that a step over
 * an end leaves the memory that was allocated. */
static size_t guard;

/* The sizes count what is lent; the memory has the guards too. */
typedef struct {
    size_t table_size, links_size, schedule_size;
    uint8_t *table, *schedule;
    uint32_t *links;
} Lent;

static uint8_t byte_at(size_t i) { return (uint8_t)(3 + 7 * i); }
static uint32_t link_at(size_t i) { return (uint32_t)(1000003 + i); }

static void *room(size_t size) {
    void *p = malloc(size == 0 ? 1 : size);
    if (p == NULL) exit(2);
    return p;
}

/* All is filled by place, so that no two elements near each other are the same. */
static Lent lend(size_t table_size, size_t links_size, size_t schedule_size) {
    Lent m = {table_size, links_size, schedule_size, room(table_size + 2 * guard), room(schedule_size + 2 * guard),
              room((links_size + 2 * guard) * sizeof(uint32_t))};
    for (size_t i = 0; i < table_size + 2 * guard; i++) m.table[i] = byte_at(i);
    for (size_t i = 0; i < schedule_size + 2 * guard; i++) m.schedule[i] = byte_at(i);
    for (size_t i = 0; i < links_size + 2 * guard; i++) m.links[i] = link_at(i);
    return m;
}

/* Whether nothing changed but the first so many of each: 0 of each where all is to be as it was. */
static int rest_kept(const Lent *m, size_t table, size_t links, size_t schedule) {
    for (size_t i = 0; i < m->table_size + 2 * guard; i++)
        if ((i < guard || i >= guard + table) && m->table[i] != byte_at(i)) return 0;
    for (size_t i = 0; i < m->schedule_size + 2 * guard; i++)
        if ((i < guard || i >= guard + schedule) && m->schedule[i] != byte_at(i)) return 0;
    for (size_t i = 0; i < m->links_size + 2 * guard; i++)
        if ((i < guard || i >= guard + links) && m->links[i] != link_at(i)) return 0;
    return 1;
}

static void give_back(Lent m) {
    free(m.table);
    free(m.links);
    free(m.schedule);
}

/* The job stands alone in memory of its size, and the answer between two words that no call may touch. */
static void search(const uint8_t *job, size_t size, const Lent *m, uint64_t answer[4]) {
    uint8_t *copy = room(size);
    if (size > 0) memcpy(copy, job, size);
    uint64_t words[6] = {11, 12, 13, 14, 15, 16};
    handshake_search(copy, size, m->table + guard, m->table_size, m->links + guard, m->links_size, m->schedule + guard, m->schedule_size,
                     words + 1);
    CHECK(words[0] == 11 && words[5] == 16);
    CHECK(size == 0 || memcmp(copy, job, size) == 0);
    memcpy(answer, words + 1, 4 * sizeof(uint64_t));
    free(copy);
}

/* How an index is filled before a search: numbers that could be slots, from 0 on; 0 alone; all ones; any. */
enum { FROM_0, ZEROS, ONES, ANY, FILLS };
static uint32_t index_number(int fill, size_t i) {
    return fill == FROM_0 ? (uint32_t)i : fill == ZEROS ? 0 : fill == ONES ? 4294967295u : (uint32_t)(2654435769u * i);
}

/* The same with an index of so many numbers between guards, which no call may touch; after a refusal the index itself is as it was. */
static void search_indexed(const uint8_t *job, size_t size, const Lent *m, size_t numbers, int fill, uint64_t answer[4]) {
    uint8_t *copy = room(size);
    uint32_t *index = room((numbers + 2 * guard) * sizeof(uint32_t));
    if (size > 0) memcpy(copy, job, size);
    for (size_t i = 0; i < numbers + 2 * guard; i++) index[i] = index_number(fill, i);
    uint64_t words[6] = {11, 12, 13, 14, 15, 16};
    handshake_search_indexed(copy, size, m->table + guard, m->table_size, m->links + guard, m->links_size, m->schedule + guard,
                             m->schedule_size, index + guard, numbers, words + 1);
    CHECK(words[0] == 11 && words[5] == 16);
    CHECK(size == 0 || memcmp(copy, job, size) == 0);
    memcpy(answer, words + 1, 4 * sizeof(uint64_t));
    int kept = 1;
    for (size_t i = 0; i < numbers + 2 * guard; i++) {
        int is_open = answer[0] != 0 && i >= guard && i < guard + numbers;
        if (!is_open && index[i] != index_number(fill, i)) kept = 0;
    }
    CHECK(kept);
    free(copy);
    free(index);
}

static void replay(const uint8_t *job, size_t size, const uint8_t *schedule, size_t steps, uint64_t answer[4]) {
    uint8_t *copy = room(size), *walk = room(steps);
    if (size > 0) memcpy(copy, job, size);
    if (steps > 0) memcpy(walk, schedule, steps);
    uint64_t words[6] = {11, 12, 13, 14, 15, 16};
    handshake_replay(copy, size, walk, steps, words + 1);
    CHECK(words[0] == 11 && words[5] == 16);
    CHECK(size == 0 || memcmp(copy, job, size) == 0);
    CHECK(steps == 0 || memcmp(walk, schedule, steps) == 0);
    memcpy(answer, words + 1, 4 * sizeof(uint64_t));
    free(copy);
    free(walk);
}

static void fences(const uint8_t *job, size_t size, uint64_t answer[4]) {
    uint8_t *copy = room(size);
    if (size > 0) memcpy(copy, job, size);
    uint64_t words[6] = {11, 12, 13, 14, 15, 16};
    handshake_fences(copy, size, words + 1);
    CHECK(words[0] == 11 && words[5] == 16);
    CHECK(size == 0 || memcmp(copy, job, size) == 0);
    memcpy(answer, words + 1, 4 * sizeof(uint64_t));
    free(copy);
}

static void p1_whole(void) {
    static const uint8_t steps[] = {0x00, 0x00, 0x01, 0x01};
    /* Slot 0 is the start, all zero; in slot 1 thread 0 has x = 1 pending, in slot 2 thread 1 has y = 1 pending. */
    uint8_t first[3 * SLOT] = {0};
    const Job p1 = formed(P1, sizeof P1);
    first[SLOT + 0] = 1, first[SLOT + BUFFERS] = 1, put_entry(first + SLOT, 0, 0, 0, 1);
    first[2 * SLOT + 1] = 1, first[2 * SLOT + BUFFERS + BUFFER] = 1, put_entry(first + 2 * SLOT, 1, 0, 1, 1);
    uint64_t answer[4];
    Lent m = lend(ROOM * SLOT, ROOM, ROOM);
    search(p1.bytes, p1.size, &m, answer);
    CHECK(answer_is(answer, 1, 4, 22, 0));
    CHECK(memcmp(m.schedule + guard, steps, sizeof steps) == 0);
    CHECK(memcmp(m.table + guard, first, 3 * SLOT) == 0);
    CHECK(m.links[guard] == 4294967295u);
    CHECK(m.links[guard + 1] == 64 * 0 + 0);
    CHECK(m.links[guard + 2] == 64 * 0 + 1);
    /* From slot 1: thread 0 loads, thread 1 stores, x is flushed. */
    CHECK(m.links[guard + 3] == 64 * 1 + 0);
    CHECK(m.links[guard + 4] == 64 * 1 + 1);
    CHECK(m.links[guard + 5] == 64 * 1 + 4);
    /* A link leads back to an earlier slot, by a step that there is. */
    for (size_t i = 1; i < 22; i++) CHECK(m.links[guard + i] / 64 < i && m.links[guard + i] % 64 < 36);
    CHECK(rest_kept(&m, 22 * SLOT, 22, 4));
    give_back(m);
}

static void p1_by_slots(void) {
    const Job p1 = formed(P1, sizeof P1);
    uint64_t answer[4];
    Lent m = lend(22 * SLOT, 22, 22);
    search(p1.bytes, p1.size, &m, answer);
    CHECK(answer_is(answer, 1, 4, 22, 0));
    CHECK(rest_kept(&m, 22 * SLOT, 22, 4));
    give_back(m);
    /* 21 slots by each of the three, and by 151 bytes too many for 21 and too few for 22. */
    size_t sizes[4][3] = {{21 * SLOT, 22, 22}, {22 * SLOT, 21, 22}, {22 * SLOT, 22, 21}, {21 * SLOT + SLOT - 1, ROOM, ROOM}};
    for (size_t k = 0; k < 4; k++) {
        m = lend(sizes[k][0], sizes[k][1], sizes[k][2]);
        search(p1.bytes, p1.size, &m, answer);
        CHECK(answer_is(answer, 3, 21, 0, 0));
        CHECK(rest_kept(&m, 21 * SLOT, 21, 0));
        give_back(m);
    }
}

static void p2_and_p3(void) {
    static const uint8_t steps[] = {0x00, 0x00, 0x01, 0x01, 0x04, 0x0D};
    uint8_t job[sizeof P1];
    uint64_t answer[4];
    memcpy(job, P1, sizeof P1);
    job[MODEL] = 0, job[CAPACITY] = 0;
    const Job p2 = formed(job, sizeof job);
    Lent m = lend(ROOM * SLOT, ROOM, ROOM);
    search(p2.bytes, p2.size, &m, answer);
    CHECK(answer_is(answer, 2, 13, 0, 0));
    CHECK(rest_kept(&m, 13 * SLOT, 13, 0));
    give_back(m);
    memcpy(job, P1, sizeof P1);
    job[FLAG] = 1;
    const Job p3 = formed(job, sizeof job);
    m = lend(ROOM * SLOT, ROOM, ROOM);
    search(p3.bytes, p3.size, &m, answer);
    CHECK(answer_is(answer, 1, 6, 34, 0));
    CHECK(memcmp(m.schedule + guard, steps, sizeof steps) == 0);
    CHECK(rest_kept(&m, 34 * SLOT, 34, 6));
    give_back(m);
}

/* Whether a replay by steps in hex answers a, b, c, 0. */
static int replayed(const uint8_t *job, size_t size, const char *hex, uint64_t a, uint64_t b, uint64_t c) {
    uint8_t steps[16];
    uint64_t answer[4];
    replay(job, size, steps, put(steps, hex), answer);
    return answer_is(answer, a, b, c, 0);
}

static void replays(void) {
    const Job p1 = formed(P1, sizeof P1), p10 = formed(P10, sizeof P10);
    CHECK(replayed(p1.bytes, p1.size, "00 00 01 01", 1, 0, 0));
    CHECK(replayed(p1.bytes, p1.size, "00 00 01", 2, 0, 0));
    CHECK(replayed(p10.bytes, p10.size, "00 00", 3, 1, 3));
    CHECK(replayed(p10.bytes, p10.size, "24", 3, 0, 1));
    CHECK(replayed(p1.bytes, p1.size, "24", 3, 0, 1));
    CHECK(replayed(p1.bytes, p1.size, "FF", 3, 0, 1));
}

/* What stands at BARRIER in THREE: 6 FENCE or 7 XCHG. */
static uint8_t barrier;

/* The same of THREE under this model and C. */
static int three(uint8_t model, uint8_t capacity, const char *hex, uint64_t a, uint64_t b, uint64_t c) {
    uint8_t job[sizeof THREE];
    memcpy(job, THREE, sizeof THREE);
    job[MODEL] = model, job[CAPACITY] = capacity, job[BARRIER] = barrier;
    const Job f = formed(job, sizeof job);
    return replayed(f.bytes, f.size, hex, a, b, c);
}

/* Each reason under each model where it can come up. Thread t executes by t and flushes its store to v by 4 + 8t + v: thread 0 by 04 and 05,
 * thread 1 by 0C and 0D, thread 2 by 14 and 15. */
static void reasons(void) {
    const uint8_t models[3][2] = {{SC, 0}, {TSO, 2}, {PSO, 2}};
    for (size_t k = 0; k < 3; k++) {
        const uint8_t model = models[k][0], capacity = models[k][1];
        /* 1: above 35; thread 3 to execute and to flush; variable 2 and variable 7 of threads 0 to 2. */
        CHECK(three(model, capacity, "24", 3, 0, 1));
        CHECK(three(model, capacity, "40", 3, 0, 1));
        CHECK(three(model, capacity, "FF", 3, 0, 1));
        CHECK(three(model, capacity, "03", 3, 0, 1));
        CHECK(three(model, capacity, "1C", 3, 0, 1));
        CHECK(three(model, capacity, "06", 3, 0, 1));
        CHECK(three(model, capacity, "0B", 3, 0, 1));
        CHECK(three(model, capacity, "0E", 3, 0, 1));
        CHECK(three(model, capacity, "1B", 3, 0, 1));
        CHECK(three(model, capacity, "00 01 00 24", 3, 3, 1));
        /* 2: thread 2 is at its end from the start. */
        CHECK(three(model, capacity, "02", 3, 0, 2));
        CHECK(three(model, capacity, "00 01 02 00", 3, 2, 2));
        /* 5: nothing has been stored; then thread 0 has stored to x, but not to y, and the others have not. */
        CHECK(three(model, capacity, "04", 3, 0, 5));
        CHECK(three(model, capacity, "00 05", 3, 1, 5));
        CHECK(three(model, capacity, "00 0C", 3, 1, 5));
        CHECK(three(model, capacity, "00 14", 3, 1, 5));
    }
    /* SC: nothing waits, so 2 comes behind three steps of thread 0 and behind two of thread 1. No store is ever pending. */
    CHECK(three(SC, 0, "00 00 00", 2, 0, 0));
    CHECK(three(SC, 0, "00 00 00 00", 3, 3, 2));
    CHECK(three(SC, 0, "01 01", 1, 0, 0));
    CHECK(three(SC, 0, "01 01 01", 3, 2, 2));
    CHECK(three(SC, 0, "00 04", 3, 1, 5));
    for (uint8_t model = TSO; model <= PSO; model++) {
        /* 2: thread 1 has flushed and gone past its barrier. */
        CHECK(three(model, 2, "01 0C 01 01", 3, 3, 2));
        /* 3: the third store at C 2 and the second at C 1, unless one is flushed before. */
        CHECK(three(model, 2, "00 00 00", 3, 2, 3));
        CHECK(three(model, 2, "00 00 04 00", 2, 0, 0));
        CHECK(three(model, 1, "00 00", 3, 1, 3));
        CHECK(three(model, 3, "00 00 00", 2, 0, 0));
        /* 4: thread 1 has its own store pending; what thread 0 has makes no difference. */
        CHECK(three(model, 2, "01 01", 3, 1, 4));
        CHECK(three(model, 2, "01 0C 01", 1, 0, 0));
        CHECK(three(model, 2, "00 01 0C 01", 2, 0, 0));
        /* 5: it was flushed before. */
        CHECK(three(model, 2, "00 04", 2, 0, 0));
        CHECK(three(model, 2, "00 04 04", 3, 2, 5));
    }
    /* 6: y is behind x, until x is flushed; then x is behind y. PSO flushes either. */
    CHECK(three(TSO, 2, "00 00 05", 3, 2, 6));
    CHECK(three(TSO, 2, "00 00 04 05", 2, 0, 0));
    CHECK(three(TSO, 2, "00 00 04 00 04", 3, 4, 6));
    CHECK(three(PSO, 2, "00 00 05", 2, 0, 0));
    CHECK(three(PSO, 2, "00 00 04 00 04", 2, 0, 0));
}

/* Where two reasons could apply, the first of them is given. */
static void pairs_of_reasons(void) {
    const uint8_t models[3][2] = {{SC, 0}, {TSO, 2}, {PSO, 2}};
    for (size_t k = 0; k < 3; k++) {
        const uint8_t model = models[k][0], capacity = models[k][1];
        /* Thread 3 is absent and thread 2 has ended: neither has an instruction left. */
        CHECK(three(model, capacity, "03", 3, 0, 1));
        CHECK(three(model, capacity, "02", 3, 0, 2));
        /* Nothing is pending of thread 3, nor to variable 2, nor to variables 2 and 7 of thread 3: no such step. To y of thread 2 there is. */
        CHECK(three(model, capacity, "00 1D", 3, 1, 1));
        CHECK(three(model, capacity, "00 06", 3, 1, 1));
        CHECK(three(model, capacity, "00 1E", 3, 1, 1));
        CHECK(three(model, capacity, "00 23", 3, 1, 1));
        CHECK(three(model, capacity, "00 15", 3, 1, 5));
        /* A flush of an ended thread, to a variable that is there and to one that isn't. */
        CHECK(three(model, capacity, "14", 3, 0, 5));
        CHECK(three(model, capacity, "16", 3, 0, 1));
    }
    /* SC: a flush below T and V is a step, but there is nothing to flush, of a thread that has stored and of one that has ended. */
    CHECK(three(SC, 0, "00 00 04", 3, 2, 5));
    CHECK(three(SC, 0, "00 00 05", 3, 2, 5));
    CHECK(three(SC, 0, "00 00 00 04", 3, 3, 5));
    CHECK(three(SC, 0, "00 00 00 05", 3, 3, 5));
    CHECK(three(SC, 0, "00 00 00 06", 3, 3, 1));
    /* TSO: to y nothing is pending, nothing but a store to x, one behind that, and one that is the oldest. */
    CHECK(three(TSO, 3, "05", 3, 0, 5));
    CHECK(three(TSO, 3, "00 05", 3, 1, 5));
    CHECK(three(TSO, 3, "00 00 05", 3, 2, 6));
    CHECK(three(TSO, 3, "00 00 04 05", 2, 0, 0));
    /* Thread 0 has ended with x, y and x pending: to x there is the oldest, and once that is flushed there is one behind y. */
    CHECK(three(TSO, 3, "00 00 00 04", 2, 0, 0));
    CHECK(three(TSO, 3, "00 00 00 05", 3, 3, 6));
    CHECK(three(TSO, 3, "00 00 00 04 04", 3, 4, 6));
    CHECK(three(TSO, 3, "00 00 00 04 05 05", 3, 5, 5));
    CHECK(three(PSO, 3, "00 00 00 05", 2, 0, 0));
    CHECK(three(PSO, 3, "00 00 00 05 05", 3, 4, 5));
    CHECK(three(PSO, 3, "00 00 00 04 04", 2, 0, 0));
    for (uint8_t model = TSO; model <= PSO; model++) {
        /* A buffer that is full, and so not empty, at a store, at a barrier and at the end. */
        CHECK(three(model, 2, "00 00 00", 3, 2, 3));
        CHECK(three(model, 1, "01 01", 3, 1, 4));
        CHECK(three(model, 3, "00 00 00 00", 3, 3, 2));
        /* Thread 0 waits for room, thread 1 at its barrier, thread 0 has ended and has flushed all: their flushes have nothing to flush. */
        CHECK(three(model, 1, "00 05", 3, 1, 5));
        CHECK(three(model, 1, "01 0D", 3, 1, 5));
        CHECK(three(model, 3, "00 00 00 04 05 04 04", 3, 6, 5));
    }
    /* Of two that can't be taken the first decides, in the state that it is to be taken in. */
    CHECK(three(TSO, 2, "03 02", 3, 0, 1));
    CHECK(three(TSO, 2, "02 03", 3, 0, 2));
    CHECK(three(TSO, 2, "00 00 05 00", 3, 2, 6));
    CHECK(three(TSO, 2, "00 00 00 05", 3, 2, 3));
}

/* Whether the fence check of this file, in the present form, gives this answer. */
static int fences_are(const uint8_t *job, size_t size, uint64_t a, uint64_t thread, uint64_t store, uint64_t load) {
    uint64_t answer[4];
    const Job f = formed(job, size);
    fences(f.bytes, f.size, answer);
    return answer_is(answer, a, thread, store, load);
}

static void fence_checks(void) {
    uint8_t job[sizeof P1];
    uint64_t answer[4];
    const Job p9 = formed(P9, sizeof P9);
    CHECK(fences_are(P1, sizeof P1, 2, 0, 0, 1));
    memcpy(job, P1, sizeof P1);
    job[MODEL] = 0, job[CAPACITY] = 0;
    CHECK(fences_are(job, sizeof job, 2, 0, 0, 1));
    CHECK(fences_are(P9, sizeof P9, 1, 0, 0, 0));
    Lent m = lend(ROOM * SLOT, ROOM, ROOM);
    search(p9.bytes, p9.size, &m, answer);
    CHECK(answer_is(answer, 2, 31, 0, 0));
    give_back(m);
}

/* A store in dead code does not count, until a jump leads to it; the search goes by what runs. */
static void dead_code(void) {
    uint8_t job[sizeof PARKED];
    uint64_t answer[4];
    const Job parked = formed(PARKED, sizeof PARKED);
    CHECK(fences_are(PARKED, sizeof PARKED, 1, 0, 0, 0));
    Lent m = lend(ROOM * SLOT, ROOM, ROOM);
    search(parked.bytes, parked.size, &m, answer);
    CHECK(answer_is(answer, 2, 63, 0, 0));
    give_back(m);
    memcpy(job, PARKED, sizeof PARKED);
    job[BACK] = 1;
    CHECK(fences_are(job, sizeof job, 2, 0, 1, 2));
    job[MODEL] = 1, job[CAPACITY] = 2;
    const Job revived = formed(job, sizeof job);
    m = lend(ROOM * SLOT, ROOM, ROOM);
    search(revived.bytes, revived.size, &m, answer);
    CHECK(answer_is(answer, 1, 19, 266, 0));
    give_back(m);
}

/* A refusal by each of the three, and nothing lent is touched. */
static void refused(const uint8_t *job, size_t size, uint64_t number, uint64_t offset) {
    static const uint8_t step[] = {0x00};
    uint64_t answer[4];
    Lent m = lend(ROOM * SLOT, ROOM, ROOM);
    search(job, size, &m, answer);
    CHECK(answer_is(answer, 0, number, offset, 0));
    search_indexed(job, size, &m, 2 * ROOM, FROM_0, answer);
    CHECK(answer_is(answer, 0, number, offset, 0));
    CHECK(rest_kept(&m, 0, 0, 0));
    give_back(m);
    replay(job, size, step, sizeof step, answer);
    CHECK(answer_is(answer, 0, number, offset, 0));
    fences(job, size, answer);
    CHECK(answer_is(answer, 0, number, offset, 0));
}

static void refusals(void) {
    static const uint8_t version[] = {0x00, 0x01, 0x00}, later[] = {0x00, 0x01, 0x04};
    static const uint8_t cut[] = {0x00, 0x01, 0x01}, cut_two[] = {0x00, 0x01, 0x02}, cut_three[] = {0x00, 0x01, 0x03};
    uint8_t job[sizeof P1];
    refused(P1, 0, 1, 0);
    refused(P1, 2, 1, 0);
    refused(P1, sizeof P1 - 1, 1, 0);
    refused(version, sizeof version, 2, VERSION);
    refused(later, sizeof later, 2, VERSION);
    refused(cut, sizeof cut, 6, 3);
    refused(cut_two, sizeof cut_two, 6, 3);
    refused(cut_three, sizeof cut_three, 6, 3);
    memcpy(job, P1, sizeof P1);
    job[MODEL] = 3;
    refused(job, sizeof job, 3, 3);
    memcpy(job, P1, sizeof P1);
    job[10] = 0x0A;
    refused(job, sizeof job, 4, 10);
    memcpy(job, P1, sizeof P1);
    job[FLAG] = 2;
    refused(job, sizeof job, 5, FLAG);
}

/* How long a file may be goes by the byte at VERSION, which is judged only then. All else is 0 here, so where length and version are good, T is
 * not. */
static void limits(void) {
    const struct {
        uint8_t version;
        size_t size;
        uint64_t number, offset;
    } rows[] = {{1, 1109, 3, THREADS},   {1, 1110, 1, 0},       {1, 1389, 1, 0},         {1, 1390, 1, 0},
                {2, 1109, 3, THREADS},   {2, 1110, 1, 0},       {2, 1389, 1, 0},         {2, 1390, 1, 0},
                {3, 1109, 3, THREADS},   {3, 1110, 3, THREADS}, {3, 1389, 3, THREADS},   {3, 1390, 1, 0},
                {4, 1109, 2, VERSION},   {4, 1110, 1, 0},       {4, 1389, 1, 0},         {4, 1390, 1, 0},
                {0, 1109, 2, VERSION},   {0, 1110, 1, 0},       {255, 1109, 2, VERSION}, {255, 1110, 1, 0},
                {3, 7, 3, THREADS},      {3, 65537, 1, 0}};
    for (size_t k = 0; k < sizeof rows / sizeof rows[0]; k++) {
        const size_t size = rows[k].size, length = size - 2;
        uint8_t *job = room(size);
        memset(job, 0, size);
        job[0] = (uint8_t)(length / 256), job[1] = (uint8_t)(length % 256), job[VERSION] = rows[k].version;
        refused(job, size, rows[k].number, rows[k].offset);
        /* The length says one byte too many, then one too few. */
        refused(job, size - 1, 1, 0);
        job[1]--;
        refused(job, size, 1, 0);
        free(job);
    }
}

/* A blank goal: P12, which is P1 up to K with K 0, whatever the flag. A bad flag and a missing K are judged before it, bytes behind it after it. */
static void blank_goals(void) {
    Job job = formed(P1, sizeof P1);
    const uint8_t flag = form.version == 3 ? WIDE_FLAG : FLAG, k = flag + 1;
    uint64_t answer[4];
    job.bytes[k] = 0;
    refused(job.bytes, job.size, 5, k);
    job.bytes[1] = k + 1 - 2;
    refused(job.bytes, k + 1, 5, k);
    Lent m = lend(0, 0, 0);
    search(job.bytes, k + 1, &m, answer);
    CHECK(answer_is(answer, 0, 5, k, 0));
    CHECK(rest_kept(&m, 0, 0, 0));
    give_back(m);
    job.bytes[flag] = 1;
    refused(job.bytes, k + 1, 5, k);
    job.bytes[flag] = 2;
    refused(job.bytes, k + 1, 5, flag);
    job.bytes[flag] = 0;
    job.bytes[1] = k - 2;
    refused(job.bytes, k, 6, k);
}

/* The longest file of a version: TSO, C 8, eight variables, four threads of 64 times SET r0 = 0, and 16 times the clause that thread 0 is at
 * place 0. */
enum { LONGEST = 64, LONGEST_FILE = 1389 };
typedef struct {
    size_t item, first_n, thread, clauses, size;
    uint8_t bytes[LONGEST_FILE + 1];
} Long;

static Long make_longest(uint8_t version) {
    const size_t value = version == 3 ? 2 : 1;
    Long job = {.item = 3 + value, .first_n = VALUES + 8 * value};
    uint8_t *bytes = job.bytes;
    job.thread = 1 + LONGEST * job.item, job.clauses = job.first_n + 4 * job.thread + 2, job.size = job.clauses + 16 * job.item;
    CHECK(job.size == (version == 3 ? LONGEST_FILE : 1109));
    bytes[0] = (uint8_t)((job.size - 2) / 256), bytes[1] = (uint8_t)((job.size - 2) % 256);
    bytes[VERSION] = version, bytes[MODEL] = 1, bytes[CAPACITY] = 8, bytes[THREADS] = 4, bytes[VARIABLES] = 8;
    for (size_t t = 0; t < 4; t++) {
        bytes[job.first_n + t * job.thread] = LONGEST;
        for (size_t p = 0; p < LONGEST; p++) bytes[job.first_n + t * job.thread + 1 + job.item * p] = 1;
    }
    bytes[job.clauses - 1] = 16;
    for (size_t k = 0; k < 16; k++) bytes[job.clauses + job.item * k] = 1;
    return job;
}

/* Threads of 64: the longest file is accepted, one byte more is refused by 1, n = 65 by 4 at its own offset, and place 65 by a jump and by a
 * clause. Thread 3 runs to place 64 alone. A store and a load at its last places are open, and a jump back or a FENCE decides as before. */
static void long_threads(uint8_t version) {
    uint8_t steps[LONGEST + 1];
    uint64_t answer[4];
    Long job = make_longest(version);
    uint8_t *const bytes = job.bytes, *const last = bytes + job.first_n + 3 * job.thread + 1, *const clause = bytes + job.size - job.item;
    const size_t item = job.item;
    replay(bytes, job.size, NULL, 0, answer);
    CHECK(answer_is(answer, 1, 0, 0, 0));
    Lent m = lend(SLOT, 1, 1);
    search(bytes, job.size, &m, answer);
    CHECK(answer_is(answer, 1, 0, 1, 0));
    CHECK(rest_kept(&m, SLOT, 1, 0));
    give_back(m);
    for (size_t t = 0; t < 4; t++) {
        bytes[job.first_n + t * job.thread] = LONGEST + 1;
        refused(bytes, job.size, 4, job.first_n + t * job.thread);
        bytes[job.first_n + t * job.thread] = LONGEST;
    }
    for (uint8_t op = 8; op <= 9; op++) {
        last[0] = op, last[2] = LONGEST;
        fences(bytes, job.size, answer);
        CHECK(answer_is(answer, 1, 0, 0, 0));
        last[2] = LONGEST + 1;
        refused(bytes, job.size, 4, (uint64_t)(last - bytes));
    }
    job = make_longest(version);
    bytes[1]++;
    refused(bytes, job.size + 1, 1, 0);
    bytes[1]--;
    for (size_t k = 0; k < 16; k++) bytes[job.clauses + item * k + 1] = 3, bytes[job.clauses + item * (k + 1) - 1] = LONGEST;
    memset(steps, 3, sizeof steps);
    replay(bytes, job.size, steps, LONGEST, answer);
    CHECK(answer_is(answer, 1, 0, 0, 0));
    replay(bytes, job.size, steps, LONGEST - 1, answer);
    CHECK(answer_is(answer, 2, 0, 0, 0));
    replay(bytes, job.size, steps, LONGEST + 1, answer);
    CHECK(answer_is(answer, 3, LONGEST, 2, 0));
    /* The last of all steps is there, with nothing to flush; the number behind it is none. */
    steps[0] = 35;
    replay(bytes, job.size, steps, 1, answer);
    CHECK(answer_is(answer, 3, 0, 5, 0));
    steps[0] = 36;
    replay(bytes, job.size, steps, 1, answer);
    CHECK(answer_is(answer, 3, 0, 1, 0));
    clause[item - 1] = LONGEST + 1;
    refused(bytes, job.size, 5, (uint64_t)(clause - bytes));
    job = make_longest(version);
    last[item * 62] = 5, last[item * 63] = 3;
    fences(bytes, job.size, answer);
    CHECK(answer_is(answer, 2, 3, 62, 63));
    last[item * 62] = 6, last[0] = 5;
    fences(bytes, job.size, answer);
    CHECK(answer_is(answer, 1, 0, 0, 0));
    last[item * 62] = 5, last[item * 63] = 9, last[0] = 3;
    fences(bytes, job.size, answer);
    CHECK(answer_is(answer, 2, 3, 62, 0));
    last[item * 62] = 1, last[item * 63] = 5;
    fences(bytes, job.size, answer);
    CHECK(answer_is(answer, 1, 0, 0, 0));
}

/* P1 in other versions; operations 10 and 11, which version 1 refuses and version 2 takes with sound operands; one more, which neither has. */
static void versions(void) {
    const uint8_t none[] = {0, 4, 128, 255};
    /* Bad ones: register 4, variable 2, and a byte of WFENCE that is not 0. */
    const uint8_t sound[][4] = {{0x0A, 0, 0, 1}, {0x0A, 3, 1, 255}, {0x0B, 0, 0, 0}};
    const uint8_t bad[][4] = {{0x0A, 4, 0, 1}, {0x0A, 0, 2, 1}, {0x0B, 1, 0, 0}, {0x0B, 0, 1, 0}, {0x0B, 0, 0, 1}, {0x0C, 0, 0, 0}};
    uint8_t job[sizeof P1];
    memcpy(job, P1, sizeof P1);
    for (size_t k = 0; k < sizeof none; k++) {
        job[VERSION] = none[k];
        refused(job, sizeof job, 2, VERSION);
    }
    for (size_t k = 0; k < sizeof sound / sizeof sound[0]; k++) {
        memcpy(job + 10, sound[k], 4);
        job[VERSION] = 1;
        refused(job, sizeof job, 4, 10);
        job[VERSION] = 2;
        CHECK(replayed(job, sizeof job, "00 00 00", 3, 2, 2));
    }
    for (size_t k = 0; k < sizeof bad / sizeof bad[0]; k++) {
        memcpy(job + 10, bad[k], 4);
        for (uint8_t version = 1; version <= 2; version++) {
            job[VERSION] = version;
            refused(job, sizeof job, 4, 10);
        }
    }
}

/* What a slot of version 1 or 2 is in the present form. */
static void slot_formed(const uint8_t *slot, uint8_t *expected) {
    memcpy(expected, slot, SLOT);
    for (size_t i = REGISTERS; i < BUFFERS; i += 2) put_value(expected + i, slot[i + 1]);
    for (size_t t = 0; t < 4; t++)
        for (size_t i = BUFFERS + BUFFER * t + 1; i < BUFFERS + BUFFER * (t + 1); i += ENTRY) put_value(expected + i + 1, slot[i + 2]);
}

/* A file of version 1 or 2 answers in every form from this one on as it does in this one, and leaves the same behind but for the values' bytes. */
static void same_in_all(const uint8_t *narrow, size_t size, size_t first) {
    static const uint8_t steps[] = {0x00, 0x00, 0x01, 0x04};
    for (size_t k = first + 1; k < FORM_COUNT; k++) {
        uint8_t expected[SLOT];
        uint64_t one_answer[4], other_answer[4];
        form = FORMS[first];
        const Job one = formed(narrow, size);
        form = FORMS[k];
        const Job other = formed(narrow, size);
        for (size_t slots = 0; slots <= ROOM; slots += 20) {
            Lent one_lent = lend(slots * SLOT, slots, slots), other_lent = lend(slots * SLOT, slots, slots);
            search(one.bytes, one.size, &one_lent, one_answer);
            search(other.bytes, other.size, &other_lent, other_answer);
            CHECK(memcmp(one_answer, other_answer, sizeof one_answer) == 0);
            const uint64_t *a = one_answer;
            const size_t counted = a[0] == 0 ? 0 : a[0] == 1 ? a[2] : a[1], found = a[0] == 1 ? a[1] : 0;
            for (size_t i = 0; i < counted; i++) {
                slot_formed(one_lent.table + guard + i * SLOT, expected);
                CHECK(memcmp(other_lent.table + guard + i * SLOT, expected, SLOT) == 0);
            }
            CHECK(memcmp(one_lent.links, other_lent.links, (slots + 2 * guard) * sizeof(uint32_t)) == 0);
            CHECK(memcmp(one_lent.schedule, other_lent.schedule, slots + 2 * guard) == 0);
            CHECK(rest_kept(&one_lent, counted * SLOT, counted, found));
            CHECK(rest_kept(&other_lent, counted * SLOT, counted, found));
            give_back(one_lent);
            give_back(other_lent);
        }
        for (size_t count = 0; count <= sizeof steps; count++) {
            replay(one.bytes, one.size, steps, count, one_answer);
            replay(other.bytes, other.size, steps, count, other_answer);
            CHECK(memcmp(one_answer, other_answer, sizeof one_answer) == 0);
        }
        fences(one.bytes, one.size, one_answer);
        fences(other.bytes, other.size, other_answer);
        CHECK(memcmp(one_answer, other_answer, sizeof one_answer) == 0);
    }
}

static void all_versions(void) {
    same_in_all(P1, sizeof P1, 0);
    same_in_all(P9, sizeof P9, 0);
    same_in_all(P10, sizeof P10, 0);
    same_in_all(THREE, sizeof THREE, 0);
    same_in_all(PARKED, sizeof PARKED, 0);
    same_in_all(PASSING, sizeof PASSING, 1);
    same_in_all(GROUPS, sizeof GROUPS, 1);
    same_in_all(COMPARING, sizeof COMPARING, 1);
}

/* Message passing under PSO: with the WFENCE the goal is never reached, and without it by y's flush before x's. */
static void store_store_fence(void) {
    static const uint8_t steps[] = {0x00, 0x00, 0x00, 0x05, 0x01, 0x01};
    /* What is not 0 in slots 3, 7, 9 and 13, where thread 0 has run alone: behind the WFENCE x is pending with the mark; behind the second store x
     * is in group 0 and y in group 1; x flushed at the mark, which is gone; x flushed before y, whose group is now 0. */
    uint8_t expected[4][SLOT] = {{0}};
    const size_t slots[] = {3, 7, 9, 13};
    const uint32_t links[] = {64 * 1 + 0, 64 * 3 + 0, 64 * 3 + 4, 64 * 7 + 4};
    uint8_t job[sizeof PASSING];
    const Job passing = formed(PASSING, sizeof PASSING);
    uint64_t answer[4];
    expected[0][0] = 2, expected[0][BUFFERS] = 128 + 1, put_entry(expected[0], 0, 0, 0, 1);
    expected[1][0] = 3, expected[1][BUFFERS] = 2, put_entry(expected[1], 0, 0, 0, 1), put_entry(expected[1], 0, 1, 16 + 1, 1);
    expected[2][0] = 2, put_value(expected[2] + MEMORY, 1);
    expected[3][0] = 3, put_value(expected[3] + MEMORY, 1), expected[3][BUFFERS] = 1, put_entry(expected[3], 0, 0, 1, 1);
    Lent m = lend(ROOM * SLOT, ROOM, ROOM);
    search(passing.bytes, passing.size, &m, answer);
    CHECK(answer_is(answer, 2, 30, 0, 0));
    for (size_t k = 0; k < 4; k++) {
        CHECK(memcmp(m.table + guard + slots[k] * SLOT, expected[k], SLOT) == 0);
        CHECK(m.links[guard + slots[k]] == links[k]);
    }
    CHECK(rest_kept(&m, 30 * SLOT, 30, 0));
    give_back(m);
    memcpy(job, PASSING, sizeof PASSING);
    job[BETWEEN] = 2;
    Job plain = formed(job, sizeof job);
    m = lend(ROOM * SLOT, ROOM, ROOM);
    search(plain.bytes, plain.size, &m, answer);
    CHECK(answer[0] == 1 && answer[1] == sizeof steps && answer[3] == 0);
    CHECK(memcmp(m.schedule + guard, steps, sizeof steps) == 0);
    CHECK(rest_kept(&m, answer[2] * SLOT, answer[2], sizeof steps));
    give_back(m);
    /* The same schedule is stuck at the flush of y while x is pending in an older group. */
    CHECK(replayed(passing.bytes, passing.size, "00 00 00 05 01 01", 3, 3, 6));
    plain.bytes[MODEL] = TSO;
    m = lend(ROOM * SLOT, ROOM, ROOM);
    search(plain.bytes, plain.size, &m, answer);
    CHECK(answer[0] == 2);
    give_back(m);
}

/* Whether GROUPS under this model and C, with this clause for a goal, answers a replay so. */
static int groups(uint8_t model, uint8_t capacity, const uint8_t clause[4], const char *hex, uint64_t a, uint64_t b, uint64_t c) {
    uint8_t job[sizeof GROUPS];
    memcpy(job, GROUPS, sizeof GROUPS);
    job[MODEL] = model, job[CAPACITY] = capacity;
    memcpy(job + CLAUSE, clause, 4);
    const Job f = formed(job, sizeof job);
    return replayed(f.bytes, f.size, hex, a, b, c);
}

/* Steps of the one thread are 00, its flushes to x, y, z 04, 05, 06. */
static void group_reasons(void) {
    const uint8_t start[4] = {1, 0, 0, 0}, x3[4] = {3, 0, 0, 3}, x7[4] = {3, 0, 0, 7}, r3[4] = {2, 0, 0, 3};
    /* PSO, with x pending before y and x: 6 for y, until x is flushed; 5 for z, which is pending nowhere; 1 for variable 3. */
    CHECK(groups(PSO, 3, start, "00 00 00 00 05", 3, 4, 6));
    CHECK(groups(PSO, 3, start, "00 00 00 00 00 05", 3, 5, 6));
    CHECK(groups(PSO, 3, start, "00 00 00 00 00 06", 3, 5, 5));
    CHECK(groups(PSO, 3, start, "00 00 00 00 00 07", 3, 5, 1));
    CHECK(groups(PSO, 3, start, "00 00 00 00 00 04 05 04 04", 3, 8, 5));
    CHECK(groups(PSO, 3, start, "00 00 00 00 00 04 04 05 05", 3, 8, 5));
    /* 3: C counts the stores of all groups; the WFENCEs run at a full buffer too. */
    CHECK(groups(PSO, 2, start, "00 00 00 00 00", 3, 4, 3));
    CHECK(groups(PSO, 1, start, "00 00 00 00", 3, 3, 3));
    CHECK(groups(PSO, 3, start, "00 00 00 00 00 00", 2, 0, 0));
    /* TSO: a WFENCE does nothing, so the second x is behind y. SC: nothing is ever pending. */
    CHECK(groups(TSO, 3, start, "00 00 00 00 00 05", 3, 5, 6));
    CHECK(groups(TSO, 3, start, "00 00 00 00 00 04 04", 3, 6, 6));
    CHECK(groups(TSO, 3, start, "00 00 00 00 00 04 05 04", 2, 0, 0));
    CHECK(groups(SC, 0, start, "00 00 00 00 00 00 04", 3, 6, 5));
    for (uint8_t model = TSO; model <= PSO; model++) {
        /* 4: a CMPX waits for an empty buffer, also while memory's x is not what the register holds. */
        CHECK(groups(model, 3, start, "00 00 00 00 00 00 00", 3, 6, 4));
        CHECK(groups(model, 3, start, "00 00 00 00 00 00 04 05 00", 3, 8, 4));
        /* r0 is 0 and x is 3: the first CMPX leaves x and takes 3; then they are equal, and the second makes x 7. */
        CHECK(groups(model, 3, x3, "00 00 00 00 00 00 04 05 04 00", 1, 0, 0));
        CHECK(groups(model, 3, r3, "00 00 00 00 00 00 04 05 04 00", 1, 0, 0));
        CHECK(groups(model, 3, x7, "00 00 00 00 00 00 04 05 04 00", 2, 0, 0));
        CHECK(groups(model, 3, x7, "00 00 00 00 00 00 04 05 04 00 00", 1, 0, 0));
        CHECK(groups(model, 3, r3, "00 00 00 00 00 00 04 05 04 00 00", 1, 0, 0));
    }
    CHECK(groups(SC, 0, x7, "00 00 00 00 00 00 00 00", 1, 0, 0));
}

/* Whether a counted slot has thread 0 at this place with this buffer, and 0 behind it. */
static int has_buffer(const Lent *m, size_t counted, uint8_t place, const uint8_t *bytes, size_t size) {
    uint8_t buffer[BUFFER] = {0};
    memcpy(buffer, bytes, size);
    for (size_t i = 0; i < counted; i++) {
        const uint8_t *slot = m->table + guard + i * SLOT;
        if (slot[0] == place && memcmp(slot + BUFFERS, buffer, sizeof buffer) == 0) return 1;
    }
    return 0;
}

/* The buffers of GROUPS in the slots: entries by group and then by variable, groups from the oldest present, the mark while a store is there. */
static void group_slots(void) {
    const uint8_t h = form.high, l = form.low, h2 = 2 * h, l2 = 2 * l, h3 = 3 * h, l3 = 3 * l;
    const uint8_t none[] = {0}, first[] = {128 + 1, 0, h, l}, joined[] = {2, 0, h, l, 17, h2, l2}, full[] = {3, 0, h, l, 16, h3, l3, 17, h2, l2};
    const uint8_t marked[] = {128 + 3, 0, h, l, 16, h3, l3, 17, h2, l2}, renumbered[] = {128 + 2, 0, h3, l3, 1, h2, l2};
    const uint8_t x_left[] = {128 + 1, 0, h3, l3}, y_left[] = {128 + 1, 1, h2, l2};
    const uint8_t never[4] = {2, 0, 0, 9};
    uint8_t job[sizeof GROUPS];
    uint64_t answer[4];
    memcpy(job, GROUPS, sizeof GROUPS);
    memcpy(job + CLAUSE, never, 4);
    const Job f = formed(job, sizeof job);
    Lent m = lend(ROOM * SLOT, ROOM, ROOM);
    search(f.bytes, f.size, &m, answer);
    CHECK(answer[0] == 2);
    const size_t counted = answer[1];
    for (uint8_t place = 2; place <= 3; place++) {
        /* The second WFENCE finds the first one's mark; on an empty buffer neither leaves anything. */
        CHECK(has_buffer(&m, counted, place, first, sizeof first));
        CHECK(has_buffer(&m, counted, place, none, sizeof none));
    }
    CHECK(has_buffer(&m, counted, 4, joined, sizeof joined));
    CHECK(has_buffer(&m, counted, 5, full, sizeof full));
    CHECK(has_buffer(&m, counted, 6, marked, sizeof marked));
    CHECK(has_buffer(&m, counted, 6, renumbered, sizeof renumbered));
    CHECK(has_buffer(&m, counted, 6, x_left, sizeof x_left));
    CHECK(has_buffer(&m, counted, 6, y_left, sizeof y_left));
    CHECK(has_buffer(&m, counted, 6, none, sizeof none));
    /* No mark without a store, and none once a store has joined. */
    for (size_t i = 0; i < counted; i++) {
        const uint8_t *slot = m.table + guard + i * SLOT;
        CHECK(slot[BUFFERS] != 128);
        CHECK(slot[BUFFERS] < 128 || slot[0] == 2 || slot[0] == 3 || slot[0] == 6);
    }
    CHECK(rest_kept(&m, counted * SLOT, counted, 0));
    give_back(m);
}

/* Each CMPX in the slots: 0 is 0, and x becomes 5; 0 is not 5, and r0 becomes 5; 5 is 5, and x becomes 9. */
static void compare_exchange(void) {
    const uint8_t states[4][3] = {{0, 0, 0}, {1, 0, 5}, {2, 5, 5}, {3, 5, 9}};
    const Job comparing = formed(COMPARING, sizeof COMPARING);
    uint64_t answer[4];
    Lent m = lend(ROOM * SLOT, ROOM, ROOM);
    search(comparing.bytes, comparing.size, &m, answer);
    CHECK(answer_is(answer, 1, 3, 4, 0));
    for (size_t k = 0; k < 4; k++) {
        uint8_t expected[SLOT] = {0};
        expected[0] = states[k][0], put_value(expected + REGISTERS, states[k][1]), put_value(expected + MEMORY, states[k][2]);
        CHECK(memcmp(m.table + guard + k * SLOT, expected, SLOT) == 0);
    }
    CHECK(rest_kept(&m, 4 * SLOT, 4, 3));
    give_back(m);
}

/* P9 with CMPX or WFENCE in place of its fences: CMPX is a fence to the check, WFENCE is none, and neither is a store or a load. */
static void later_fences(void) {
    enum { FIRST = 14, SECOND = 27 };
    const uint8_t cmpx[4] = {0x0A, 0, 0, 1}, wfence[4] = {0x0B, 0, 0, 0};
    uint8_t job[sizeof P9];
    memcpy(job, P9, sizeof P9);
    memcpy(job + FIRST, cmpx, 4), memcpy(job + SECOND, cmpx, 4);
    CHECK(fences_are(job, sizeof job, 1, 0, 0, 0));
    memcpy(job + SECOND, wfence, 4);
    CHECK(fences_are(job, sizeof job, 2, 1, 0, 2));
    memcpy(job + FIRST, wfence, 4);
    CHECK(fences_are(job, sizeof job, 2, 0, 0, 2));
    /* In place of the stores too: then there is no store. */
    memcpy(job + FIRST - 4, cmpx, 4), memcpy(job + SECOND - 4, wfence, 4);
    CHECK(fences_are(job, sizeof job, 1, 0, 0, 0));
    /* Stores, and in place of the loads CMPX and WFENCE: then there is no load. */
    memcpy(job, P9, sizeof P9);
    memcpy(job + FIRST, wfence, 4), memcpy(job + SECOND, wfence, 4);
    memcpy(job + FIRST + 4, cmpx, 4), memcpy(job + SECOND + 4, wfence, 4);
    CHECK(fences_are(job, sizeof job, 1, 0, 0, 0));
}

/* Nothing lent: refusal 7 for whichever buffer is empty, and 1 to 6 before it. NULL stands for an empty buffer. */
static void empty_buffers(void) {
    static const uint8_t version[] = {0x00, 0x01, 0x00};
    const Job p1 = formed(P1, sizeof P1);
    uint64_t answer[4];
    size_t sizes[4][3] = {{0, ROOM, ROOM}, {SLOT - 1, ROOM, ROOM}, {ROOM * SLOT, 0, ROOM}, {ROOM * SLOT, ROOM, 0}};
    for (size_t k = 0; k < 4; k++) {
        Lent m = lend(sizes[k][0], sizes[k][1], sizes[k][2]);
        search(p1.bytes, p1.size, &m, answer);
        CHECK(answer_is(answer, 0, 7, 0, 0));
        search(version, sizeof version, &m, answer);
        CHECK(answer_is(answer, 0, 2, 2, 0));
        CHECK(rest_kept(&m, 0, 0, 0));
        give_back(m);
    }
    handshake_search(p1.bytes, p1.size, NULL, 0, NULL, 0, NULL, 0, answer);
    CHECK(answer_is(answer, 0, 7, 0, 0));
    handshake_search(NULL, 0, NULL, 0, NULL, 0, NULL, 0, answer);
    CHECK(answer_is(answer, 0, 1, 0, 0));
    handshake_replay(NULL, 0, NULL, 0, answer);
    CHECK(answer_is(answer, 0, 1, 0, 0));
    handshake_replay(p1.bytes, p1.size, NULL, 0, answer);
    CHECK(answer_is(answer, 2, 0, 0, 0));
    handshake_fences(NULL, 0, answer);
    CHECK(answer_is(answer, 0, 1, 0, 0));
}

/* P1 in version 3, as a file: a byte for each fault, and a cut at each length. */
static void wide_file(void) {
    /* Where each item begins, from the model on, and where the last ends. The initial values at 7 and 9 have two bytes, and half of one is none. */
    const uint8_t starts[] = {3, 4, 5, 6, 7, 9, 11, 12, 17, 22, 23, 28, 33, 34, 35, 40, 45, 50, sizeof WIDE};
    const struct {
        uint8_t at, byte, number;
    } faults[] = {{MODEL, 3, 3},     {CAPACITY, 0, 3}, {CAPACITY, 9, 3}, {THREADS, 0, 3},   {THREADS, 5, 3}, {VARIABLES, 0, 3},
                  {VARIABLES, 9, 3}, {11, 65, 4},      {22, 255, 4},     {WIDE_FLAG, 2, 5}, {WIDE_K, 0, 5},  {WIDE_K, 17, 5}};
    uint8_t job[sizeof WIDE + 1];
    form = FORMS[FIRST_WIDE];
    const Job p1 = formed(P1, sizeof P1);
    CHECK(p1.size == sizeof WIDE && memcmp(p1.bytes, WIDE, sizeof WIDE) == 0);
    for (size_t k = 0; k < sizeof faults / sizeof faults[0]; k++) {
        memcpy(job, WIDE, sizeof WIDE);
        job[faults[k].at] = faults[k].byte;
        refused(job, sizeof WIDE, faults[k].number, faults[k].at);
    }
    memcpy(job, WIDE, sizeof WIDE);
    job[MODEL] = SC;
    refused(job, sizeof WIDE, 3, CAPACITY);
    job[MODEL] = PSO, job[CAPACITY] = 8;
    CHECK(replayed(job, sizeof WIDE, "", 2, 0, 0));
    for (uint8_t size = 3; size < sizeof WIDE; size++) {
        size_t k = 0;
        while (starts[k + 1] <= size) k++;
        /* What is there of the item that is cut is bad, if it can be: that it isn't wholly there comes first. */
        for (int spoilt = 0; spoilt < 2; spoilt++) {
            memcpy(job, WIDE, sizeof WIDE);
            job[1] = size - 2;
            if (spoilt) memset(job + starts[k], 255, size - starts[k]);
            refused(job, size, 6, starts[k]);
        }
    }
    memcpy(job, WIDE, sizeof WIDE);
    job[sizeof WIDE] = 0, job[1]++;
    refused(job, sizeof job, 6, sizeof WIDE);
    /* P1 as it stands in version 1, said to be version 3: values 0 and 0205, no instructions, flag 1, K 3, and a clause of kind 0. The other way
     * round: no instructions, and the flag is 2. */
    memcpy(job, P1, sizeof P1);
    job[VERSION] = 3;
    refused(job, sizeof P1, 5, 15);
    memcpy(job, WIDE, sizeof WIDE);
    for (job[VERSION] = 1; job[VERSION] <= 2; job[VERSION]++) refused(job, sizeof WIDE, 5, 11);
}

/* Each operation and each clause of version 3, with the ends of each operand and one more, and each byte that must be 0. */
static void operands(void) {
    /* A line for each operation; there are two variables, and two instructions. */
    const char *const sound[] = {"01 00 00 00 00", "01 03 00 FF FF",
                                 "02 00 00 00 00", "02 03 00 FF FF",
                                 "03 00 00 00 00", "03 03 01 00 00",
                                 "04 00 00 00 00", "04 03 01 00 00",
                                 "05 00 00 00 00", "05 00 01 FF FF",
                                 "06 00 00 00 00",
                                 "07 00 00 00 00", "07 03 01 00 00",
                                 "08 00 00 00 00", "08 03 02 FF FF",
                                 "09 00 00 00 00", "09 00 02 00 00",
                                 "0A 00 00 00 00", "0A 03 01 FF FF",
                                 "0B 00 00 00 00"};
    const char *const bad[] = {"00 00 00 00 00", "0C 00 00 00 00", "FF 00 00 00 00",
                               "01 04 00 00 01", "01 00 01 00 01",
                               "02 04 00 00 01", "02 00 01 00 01",
                               "03 04 00 00 00", "03 00 02 00 00", "03 00 00 01 00", "03 00 00 00 01",
                               "04 04 00 00 00", "04 00 02 00 00", "04 00 00 01 00", "04 00 00 00 01",
                               "05 01 00 00 01", "05 00 02 00 01",
                               "06 01 00 00 00", "06 00 01 00 00", "06 00 00 01 00", "06 00 00 00 01",
                               "07 04 00 00 00", "07 00 02 00 00", "07 00 00 01 00", "07 00 00 00 01",
                               "08 04 00 00 01", "08 00 03 00 01",
                               "09 01 00 00 00", "09 00 03 00 00", "09 00 00 01 00", "09 00 00 00 01",
                               "0A 04 00 00 01", "0A 00 02 00 01",
                               "0B 01 00 00 00", "0B 00 01 00 00", "0B 00 00 01 00", "0B 00 00 00 01"};
    const char *const sound_clauses[] = {"01 00 00 00 00", "01 01 00 00 02",
                                         "02 00 00 00 00", "02 01 03 FF FF",
                                         "03 00 00 00 00", "03 01 00 FF FF"};
    /* Of the places 3 is above n; 0100, 0102 and 0202 are a good one and 256 or 512. */
    const char *const bad_clauses[] = {"00 00 00 00 00", "04 00 00 00 00",
                                       "01 02 00 00 00", "01 00 01 00 00", "01 00 00 00 03",
                                       "01 00 00 01 00", "01 00 00 01 02", "01 01 00 02 02", "01 00 00 FF FF",
                                       "02 02 00 00 00", "02 00 04 00 00",
                                       "03 02 00 00 00", "03 00 01 00 00"};
    uint8_t job[sizeof WIDE];
    memcpy(job, WIDE, sizeof WIDE);
    for (size_t k = 0; k < sizeof sound / sizeof sound[0]; k++) {
        CHECK(put(job + WIDE_INSTRUCTION, sound[k]) == ITEM);
        CHECK(replayed(job, sizeof job, "", 2, 0, 0));
    }
    for (size_t k = 0; k < sizeof bad / sizeof bad[0]; k++) {
        CHECK(put(job + WIDE_INSTRUCTION, bad[k]) == ITEM);
        refused(job, sizeof job, 4, WIDE_INSTRUCTION);
    }
    memcpy(job, WIDE, sizeof WIDE);
    for (size_t k = 0; k < sizeof sound_clauses / sizeof sound_clauses[0]; k++) {
        CHECK(put(job + WIDE_CLAUSE, sound_clauses[k]) == ITEM);
        CHECK(replayed(job, sizeof job, "", 2, 0, 0));
    }
    for (size_t k = 0; k < sizeof bad_clauses / sizeof bad_clauses[0]; k++) {
        CHECK(put(job + WIDE_CLAUSE, bad_clauses[k]) == ITEM);
        refused(job, sizeof job, 5, WIDE_CLAUSE);
    }
}

/* Searches the job in ROOM slots and checks the answer and that nothing else was written. */
static Lent searched(Job job, uint64_t a, uint64_t b, uint64_t c) {
    uint64_t answer[4];
    Lent m = lend(ROOM * SLOT, ROOM, ROOM);
    search(job.bytes, job.size, &m, answer);
    CHECK(answer_is(answer, a, b, c, 0));
    const size_t counted = a == 1 ? c : b;
    CHECK(rest_kept(&m, counted * SLOT, counted, a == 1 ? b : 0));
    return m;
}

static void search_gives(Job job, uint64_t a, uint64_t b, uint64_t c) { give_back(searched(job, a, b, c)); }

/* Whether a slot has these bytes, and 0 everywhere else: of thread 0, or of threads 0 and 1, the places, registers and memory, and both buffers. */
static int slot_is(const Lent *m, size_t slot, const char *places, const char *registers, const char *memory, const char *first,
                   const char *second) {
    uint8_t expected[SLOT] = {0};
    put(expected + 0, places), put(expected + 4, registers), put(expected + 36, memory), put(expected + 52, first), put(expected + 77, second);
    return memcmp(m->table + guard + slot * SLOT, expected, SLOT) == 0;
}

/* Whether one of the counted slots is so. */
static int one_is(const Lent *m, size_t counted, const char *places, const char *registers, const char *memory, const char *buffer) {
    for (size_t slot = 0; slot < counted; slot++)
        if (slot_is(m, slot, places, registers, memory, buffer, "")) return 1;
    return 0;
}

/* P1 with values that need both bytes: x is 0102 and y 0304 at the start, thread 0 stores 1234 to x, thread 1 ABCD to y. */
static const char *const BUFFERING = "03 01 01 02 02  01 02 03 04  02  05 00 00 12 34  03 00 01 00 00  02  05 00 01 AB CD  03 00 00 00 00";

static void wide_buffering(void) {
    Lent m = searched(file(BUFFERING, "00 04  01 00 00 00 02  01 01 00 00 02  02 00 00 03 04  02 01 00 01 02"), 1, 4, 22);
    CHECK(memcmp(m.schedule + guard, "\x00\x00\x01\x01", 4) == 0);
    CHECK(slot_is(&m, 0, "", "", "01 02 03 04", "", ""));
    CHECK(slot_is(&m, 1, "01", "", "01 02 03 04", "01 00 12 34", ""));
    CHECK(slot_is(&m, 2, "00 01", "", "01 02 03 04", "", "01 01 AB CD"));
    /* From slot 1: thread 0 loads y, thread 1 stores, x is flushed. From slot 2, but for what slot 4 has: thread 1 loads x, y is flushed. */
    const uint32_t links[] = {64 * 1 + 0, 64 * 1 + 1, 64 * 1 + 4, 64 * 2 + 1, 64 * 2 + 13};
    CHECK(memcmp(m.links + guard + 3, links, sizeof links) == 0);
    CHECK(slot_is(&m, 3, "02", "03 04", "01 02 03 04", "01 00 12 34", ""));
    CHECK(slot_is(&m, 4, "01 01", "", "01 02 03 04", "01 00 12 34", "01 01 AB CD"));
    CHECK(slot_is(&m, 5, "01", "", "12 34 03 04", "", ""));
    CHECK(slot_is(&m, 6, "00 02", "00 00 00 00 00 00 00 00 01 02", "01 02 03 04", "", "01 01 AB CD"));
    CHECK(slot_is(&m, 7, "00 01", "", "01 02 AB CD", "", ""));
    give_back(m);
}

/* A clause of a register or of memory holds by both bytes: of 0304 in a register and 1234 in memory, one byte too high, one alone, and the two
 * the wrong way round. P1 has 34 states in all. */
static void wide_clauses(void) {
    const char *const never[] = {"00 01  02 00 00 03 05", "00 01  02 00 00 04 04", "00 01  02 00 00 00 04", "00 01  02 00 00 03 00",
                                 "00 01  02 00 00 04 03", "00 01  03 00 00 12 35", "00 01  03 00 00 13 34", "00 01  03 00 00 00 34",
                                 "00 01  03 00 00 12 00", "00 01  03 00 00 34 12", "00 01  03 01 00 FF FF", "00 01  02 00 03 00 01"};
    for (size_t k = 0; k < sizeof never / sizeof never[0]; k++) search_gives(file(BUFFERING, never[k]), 2, 34, 0);
    search_gives(file(BUFFERING, "00 02  03 00 00 01 02  03 01 00 03 04"), 1, 0, 1);
    /* x in memory is 1234 behind 00 04, and thread 0 has read 0304 behind 00 00: both are two steps away, and 8 states at most two. */
    Lent m = searched(file(BUFFERING, "00 01  03 00 00 12 34"), 1, 2, 8);
    CHECK(memcmp(m.schedule + guard, "\x00\x04", 2) == 0);
    give_back(m);
    m = searched(file(BUFFERING, "00 01  02 00 00 03 04"), 1, 2, 8);
    CHECK(memcmp(m.schedule + guard, "\x00\x00", 2) == 0);
    give_back(m);
}

/* SC, one thread that never stores to x, whose value is FFFF: k and an initial value at their end, ADD over it, and over a byte's. */
static void wide_adding(void) {
    static const char program[] = "03 00 00 01 01  FF FF  0A  01 00 00 FF FF  02 00 00 00 01  01 01 00 00 FF  02 01 00 00 01  02 01 00 FE FF"
                                  "  02 01 00 FF FF  02 01 00 00 02  01 02 00 80 80  02 02 00 80 81  03 03 00 00 00";
    const char *const states[][2] = {{"00", ""},
                                     {"01", "FF FF"},
                                     {"02", "00 00"},
                                     {"03", "00 00 00 FF"},
                                     {"04", "00 00 01 00"},
                                     {"05", "00 00 FF FF"},
                                     {"06", "00 00 FF FE"},
                                     {"07", "00 00 00 00"},
                                     {"08", "00 00 00 00 80 80"},
                                     {"09", "00 00 00 00 01 01"},
                                     {"0A", "00 00 00 00 01 01 FF FF"}};
    Lent m = searched(file(program, "00 02  02 00 02 01 01  02 00 03 FF FF"), 1, 10, 11);
    for (size_t k = 0; k < 11; k++) CHECK(slot_is(&m, k, states[k][0], states[k][1], "FF FF", "", ""));
    give_back(m);
    /* What 8080 + 8081 would be with no carry between the bytes, and 255 + 1 if it wrapped as in version 1. */
    search_gives(file(program, "00 01  02 00 02 00 01"), 2, 11, 0);
    search_gives(file(program, "00 02  01 00 00 00 04  02 00 01 00 00"), 2, 11, 0);
}

/* In versions 1 and 2 ADD stays below 256, and the high bytes stay 0: 255 + 1 is 0, and 128 + 200 is 72. */
static void narrow_adding(void) {
    const char *const states[][2] = {{"00", ""}, {"01", "00 FF"}, {"02", "00 00"}, {"03", "00 00 00 80"}, {"04", "00 00 00 48"}};
    Job job = file("01 00 00 01 01  FF  04  01 00 00 FF  02 00 00 01  01 01 00 80  02 01 00 C8", "00 01  02 00 01 48");
    for (uint8_t version = 1; version <= 2; version++) {
        job.bytes[VERSION] = version;
        Lent m = searched(job, 1, 4, 5);
        for (size_t k = 0; k < 5; k++) CHECK(slot_is(&m, k, states[k][0], states[k][1], "00 FF", "", ""));
        give_back(m);
    }
}

/* JEQ by both bytes: 1234 is not 1334, 1235, 0034, 1200 or 3412, and FFFF is not 00FF. Whoever jumps there stays at place 11. */
static void wide_jumps(void) {
    static const char program[] = "03 00 00 01 01  00 00  0C  01 00 00 12 34  08 00 0B 13 34  08 00 0B 12 35  08 00 0B 00 34  08 00 0B 12 00"
                                  "  08 00 0B 34 12  08 00 08 12 34  09 00 0B 00 00  01 00 00 FF FF  08 00 0B 00 FF  08 00 0C FF FF"
                                  "  09 00 0B 00 00";
    const char *const places[] = {"00", "01", "02", "03", "04", "05", "06", "08", "09", "0A", "0C"};
    Lent m = searched(file(program, "00 01  01 00 00 00 0C"), 1, 10, 11);
    for (size_t k = 0; k < 11; k++) CHECK(slot_is(&m, k, places[k], k == 0 ? "" : k < 8 ? "12 34" : "FF FF", "", "", ""));
    give_back(m);
}

/* CMPX by both bytes, of r0 and x: 0000 is not 0100; 0100 is, and x becomes 0001; 0101 and 0002 are not 0001; 0001 is, and x becomes FFFF, which
 * r0 then takes. */
static void wide_comparing(void) {
    static const char program[] = " 01 01  01 00  08  0A 00 00 05 05  0A 00 00 00 01  01 00 00 01 01  0A 00 00 FF FF  01 00 00 00 02"
                                  "  0A 00 00 FF FF  0A 00 00 FF FF  0A 00 00 00 00";
    static const char *const models[] = {"03 00 00", "03 01 01", "03 02 08"};
    const char *const states[][3] = {{"00", "00 00", "01 00"}, {"01", "01 00", "01 00"}, {"02", "01 00", "00 01"},
                                     {"03", "01 01", "00 01"}, {"04", "00 01", "00 01"}, {"05", "00 02", "00 01"},
                                     {"06", "00 01", "00 01"}, {"07", "00 01", "FF FF"}, {"08", "FF FF", "FF FF"}};
    for (size_t model = 0; model < 3; model++) {
        char whole[sizeof program + 16];
        snprintf(whole, sizeof whole, "%s%s", models[model], program);
        Lent m = searched(file(whole, "00 02  02 00 00 FF FF  03 00 00 FF FF"), 1, 8, 9);
        for (size_t k = 0; k < 9; k++) CHECK(slot_is(&m, k, states[k][0], states[k][1], states[k][2], "", ""));
        give_back(m);
    }
}

/* One thread, C 3: x = 0111, WFENCE, x = 0211, r0 takes x, y takes r0, FENCE, r1 and y change places, r2 takes x. r3 is never 1, so all states
 * are counted: by place and by what is flushed 1, 2, 2, 3, 3, 4, 1, 1, 1 under TSO; under PSO y may go before the second x, so 5 at place 5. */
static void wide_stores(void) {
    static const char program[] = "03 01 03 01 02  00 11 07 07  08  05 00 00 01 11  0B 00 00 00 00  05 00 00 02 11  03 00 00 00 00"
                                  "  04 00 01 00 00  06 00 00 00 00  07 01 01 00 00  03 02 00 00 00";
    Job job = file(program, "00 01  02 00 03 00 01");
    Lent tso = searched(job, 2, 18, 0);
    CHECK(one_is(&tso, 18, "02", "", "00 11 07 07", "01 00 01 11"));
    CHECK(one_is(&tso, 18, "03", "", "00 11 07 07", "02 00 01 11 00 02 11"));
    CHECK(one_is(&tso, 18, "04", "02 11", "00 11 07 07", "02 00 01 11 00 02 11"));
    CHECK(one_is(&tso, 18, "05", "02 11", "00 11 07 07", "03 00 01 11 00 02 11 01 02 11"));
    CHECK(one_is(&tso, 18, "05", "02 11", "01 11 07 07", "02 00 02 11 01 02 11"));
    CHECK(one_is(&tso, 18, "05", "02 11", "02 11 07 07", "01 01 02 11"));
    CHECK(one_is(&tso, 18, "05", "02 11", "02 11 02 11", ""));
    CHECK(one_is(&tso, 18, "07", "02 11 02 11", "02 11 00 00", ""));
    CHECK(one_is(&tso, 18, "08", "02 11 02 11 02 11", "02 11 00 00", ""));
    give_back(tso);
    CHECK(replayed(job.bytes, job.size, "00 00 00 00 00 05", 3, 5, 6));
    CHECK(replayed(job.bytes, job.size, "00 00 00 00 00 04 05", 3, 6, 6));
    job.bytes[MODEL] = PSO;
    Lent pso = searched(job, 2, 19, 0);
    /* The second x and y are of group 1 while the first x is there, and of group 0 once it is flushed. */
    CHECK(one_is(&pso, 19, "02", "", "00 11 07 07", "81 00 01 11"));
    CHECK(one_is(&pso, 19, "03", "", "00 11 07 07", "02 00 01 11 10 02 11"));
    CHECK(one_is(&pso, 19, "04", "02 11", "00 11 07 07", "02 00 01 11 10 02 11"));
    CHECK(one_is(&pso, 19, "05", "02 11", "00 11 07 07", "03 00 01 11 10 02 11 11 02 11"));
    CHECK(one_is(&pso, 19, "05", "02 11", "01 11 07 07", "02 00 02 11 01 02 11"));
    CHECK(one_is(&pso, 19, "05", "02 11", "02 11 07 07", "01 01 02 11"));
    CHECK(one_is(&pso, 19, "05", "02 11", "01 11 02 11", "01 00 02 11"));
    CHECK(one_is(&pso, 19, "08", "02 11 02 11 02 11", "02 11 00 00", ""));
    give_back(pso);
    CHECK(replayed(job.bytes, job.size, "00 00 00 00 00 05", 3, 5, 6));
    CHECK(replayed(job.bytes, job.size, "00 00 00 00 00 04 05 04 00 00 00", 2, 0, 0));
    job.bytes[MODEL] = SC, job.bytes[CAPACITY] = 0;
    Lent sc = searched(job, 2, 9, 0);
    CHECK(slot_is(&sc, 3, "03", "", "02 11 07 07", "", ""));
    CHECK(slot_is(&sc, 8, "08", "02 11 02 11 02 11", "02 11 00 00", "", ""));
    give_back(sc);
}

/* Thread 3 stores to all eight variables, from 7 down to 0; the goal is that it has ended. With e stores executed and f of them flushed, e + f at
 * most 8: under TSO, where the oldest is flushed first, 25 states, 16 in six steps and 20 in seven; under PSO, where any is, 88 and in seven 54.
 * The first state eight steps away has all stores pending, in the last 25 bytes of the slot. */
static void full_buffers(void) {
    static const char program[] = "03 01 08 04 08  10 20 11 21 12 22 13 23 14 24 15 25 16 26 17 27  00  00  00  08  05 00 07 37 47  05 00 06 36 46"
                                  "  05 00 05 35 45  05 00 04 34 44  05 00 03 33 43  05 00 02 32 42  05 00 01 31 41  05 00 00 30 40";
    static const char start[] = "10 20 11 21 12 22 13 23 14 24 15 25 16 26 17 27";
    uint8_t expected[4][SLOT] = {{0}};
    Job job = file(program, "00 01  01 03 00 00 08");
    put(expected[0], "00 00 00 08"), put(expected[0] + 36, start);
    put(expected[0] + 127, "08 07 37 47 06 36 46 05 35 45 04 34 44 03 33 43 02 32 42 01 31 41 00 30 40");
    put(expected[1], "00 00 00 05"), put(expected[1] + 36, "10 20 11 21 12 22 13 23 14 24 35 45 36 46 37 47");
    put(expected[1] + 127, "02 04 34 44 03 33 43");
    put(expected[2], "00 00 00 08"), put(expected[2] + 36, start);
    put(expected[2] + 127, "08 00 30 40 01 31 41 02 32 42 03 33 43 04 34 44 05 35 45 06 36 46 07 37 47");
    put(expected[3], "00 00 00 07"), put(expected[3] + 36, "10 20 31 41 12 22 13 23 14 24 15 25 16 26 17 27");
    put(expected[3] + 127, "06 02 32 42 03 33 43 04 34 44 05 35 45 06 36 46 07 37 47");
    Lent m = searched(job, 1, 8, 25);
    CHECK(memcmp(m.schedule + guard, "\x03\x03\x03\x03\x03\x03\x03\x03", 8) == 0);
    CHECK(memcmp(m.table + guard + 20 * SLOT, expected[0], SLOT) == 0 && m.links[guard + 20] == 64 * 16 + 3);
    CHECK(memcmp(m.table + guard + 23 * SLOT, expected[1], SLOT) == 0);
    give_back(m);
    job.bytes[MODEL] = PSO;
    m = searched(job, 1, 8, 88);
    CHECK(memcmp(m.table + guard + 54 * SLOT, expected[2], SLOT) == 0);
    /* The store to variable 1 is the last of seven, and flushed by 1D. */
    CHECK(memcmp(m.table + guard + 55 * SLOT, expected[3], SLOT) == 0 && m.links[guard + 55] % 64 == 0x1D);
    give_back(m);
}

/* SC, four threads that set their four registers: 5 places each, 625 states, and the last one has every register's two bytes. */
static void all_registers(void) {
    enum { STATES = 625 };
    uint8_t expected[SLOT] = {4, 4, 4, 4};
    uint64_t answer[4];
    Job job = file("03 00 00 04 01  00 00", "");
    for (uint8_t t = 0; t < 4; t++) {
        job.bytes[job.size++] = 4;
        for (uint8_t r = 0; r < 4; r++, job.size += ITEM) {
            const uint8_t instruction[ITEM] = {1, r, 0, (uint8_t)(0xA0 + 4 * t + r), (uint8_t)(0x50 + 4 * t + r)};
            memcpy(job.bytes + job.size, instruction, ITEM);
            memcpy(expected + 4 + 8 * t + 2 * r, instruction + 3, 2);
        }
    }
    job.size += put(job.bytes + job.size, "00 04  01 00 00 00 04  01 01 00 00 04  01 02 00 00 04  01 03 00 00 04");
    put_length(&job);
    Lent m = lend(STATES * SLOT, STATES, STATES);
    search(job.bytes, job.size, &m, answer);
    CHECK(answer_is(answer, 1, 16, STATES, 0));
    CHECK(memcmp(m.schedule + guard, "\0\0\0\0\1\1\1\1\2\2\2\2\3\3\3\3", 16) == 0);
    CHECK(memcmp(m.table + guard + (STATES - 1) * SLOT, expected, SLOT) == 0);
    /* Before it four states lack one step each, and the first of them lacks thread 3's. */
    CHECK(m.links[guard + STATES - 1] == 64 * (STATES - 5) + 3);
    CHECK(rest_kept(&m, STATES * SLOT, STATES, 16));
    give_back(m);
    m = lend(STATES * SLOT - 1, STATES, STATES);
    search(job.bytes, job.size, &m, answer);
    CHECK(answer_is(answer, 3, STATES - 1, 0, 0));
    CHECK(rest_kept(&m, (STATES - 1) * SLOT, STATES - 1, 0));
    give_back(m);
}

/* Whether both have the same in the table, in the schedule and in so many first links. */
static int same_memory(const Lent *m, const Lent *other, size_t slots) {
    return memcmp(m->table, other->table, m->table_size + 2 * guard) == 0 &&
           memcmp(m->schedule, other->schedule, m->schedule_size + 2 * guard) == 0 &&
           memcmp(m->links + guard, other->links + guard, slots * sizeof(uint32_t)) == 0;
}

/* P1 with an index: 44 numbers are enough for its 22 states, and at each length all is as without an index in half as many links. */
static void indexed_p1(void) {
    enum { ALL = 24 };
    const Job p1 = formed(P1, sizeof P1);
    uint64_t answer[4], plain[4];
    for (int fill = 0; fill < FILLS; fill++) {
        for (size_t numbers = 0; numbers <= 2 * ALL + 1; numbers++) {
            const size_t slots = numbers / 2;
            Lent m = lend(ALL * SLOT, ALL, ALL), without = lend(ALL * SLOT, slots, ALL);
            search_indexed(p1.bytes, p1.size, &m, numbers, fill, answer);
            if (slots == 0)
                CHECK(answer_is(answer, 0, 7, 0, 0) && rest_kept(&m, 0, 0, 0));
            else if (slots < 22)
                CHECK(answer_is(answer, 3, slots, 0, 0) && rest_kept(&m, slots * SLOT, slots, 0));
            else
                CHECK(answer_is(answer, 1, 4, 22, 0) && rest_kept(&m, 22 * SLOT, 22, 4));
            search(p1.bytes, p1.size, &without, plain);
            CHECK(memcmp(answer, plain, sizeof answer) == 0);
            CHECK(same_memory(&m, &without, slots));
            give_back(m);
            give_back(without);
        }
    }
}

/* The smallest of the four decides, and an index that is longer makes no difference. */
static void indexed_by_slots(void) {
    const Job p1 = formed(P1, sizeof P1);
    static const size_t sizes[][5] = {{8 * SLOT, 8, 8, 14, 7}, {8 * SLOT, 8, 8, 15, 7},   {8 * SLOT - 1, 8, 8, 16, 7}, {8 * SLOT, 7, 8, 17, 7},
                                      {8 * SLOT, 8, 7, 16, 7}, {8 * SLOT, 8, 8, 1000, 8}, {8 * SLOT, 9, 9, 16, 8},     {SLOT, 1, 1, 2, 1}};
    uint64_t answer[4];
    for (size_t k = 0; k < sizeof sizes / sizeof sizes[0]; k++) {
        for (int fill = 0; fill < FILLS; fill++) {
            const size_t slots = sizes[k][4];
            Lent m = lend(sizes[k][0], sizes[k][1], sizes[k][2]);
            search_indexed(p1.bytes, p1.size, &m, sizes[k][3], fill, answer);
            CHECK(answer_is(answer, 3, slots, 0, 0));
            CHECK(rest_kept(&m, slots * SLOT, slots, 0));
            give_back(m);
        }
    }
}

/* Refused by the job or for want of a slot, which comes last: nothing is written, in the index either. */
static void indexed_refusals(void) {
    static const struct {
        size_t at, size;
        uint8_t value;
        uint64_t number, offset;
    } faults[] = {{1, sizeof P1, 0x2A, 1, 0}, {VERSION, sizeof P1, 0, 2, 2},  {MODEL, sizeof P1, 3, 3, 3},     {10, sizeof P1, 0x0C, 4, 10},
                  {FLAG, sizeof P1, 2, 5, 27}, {K, sizeof P1, 5, 6, 45},       {K, sizeof P1, 0, 5, 28},         {0, 0, 0, 1, 0}};
    static const size_t numbers[] = {0, 1, 2, 3, 44, 1000};
    uint8_t job[sizeof P1];
    uint64_t answer[4];
    for (size_t k = 0; k < sizeof faults / sizeof faults[0]; k++) {
        memcpy(job, P1, sizeof P1);
        job[faults[k].at] = faults[k].value;
        for (size_t n = 0; n < sizeof numbers / sizeof numbers[0]; n++) {
            for (int fill = 0; fill < FILLS; fill++) {
                Lent m = lend(30 * SLOT, 30, 30), none = lend(0, 0, 0);
                search_indexed(job, faults[k].size, &m, numbers[n], fill, answer);
                CHECK(answer_is(answer, 0, faults[k].number, faults[k].offset, 0));
                CHECK(rest_kept(&m, 0, 0, 0));
                search_indexed(job, faults[k].size, &none, numbers[n], fill, answer);
                CHECK(answer_is(answer, 0, faults[k].number, faults[k].offset, 0));
                search_indexed(P1, sizeof P1, &none, numbers[n], fill, answer);
                CHECK(answer_is(answer, 0, 7, 0, 0));
                CHECK(rest_kept(&none, 0, 0, 0));
                give_back(m);
                give_back(none);
            }
        }
    }
}

/* No index at all, and no memory at all. */
static void indexed_nothing(void) {
    uint64_t answer[4] = {1, 2, 3, 4};
    handshake_search_indexed(P1, sizeof P1, NULL, 0, NULL, 0, NULL, 0, NULL, 0, answer);
    CHECK(answer_is(answer, 0, 7, 0, 0));
    handshake_search_indexed(NULL, 0, NULL, 0, NULL, 0, NULL, 0, NULL, 0, answer);
    CHECK(answer_is(answer, 0, 1, 0, 0));
    Lent m = lend(SLOT, 1, 1);
    handshake_search_indexed(P1, sizeof P1, m.table + guard, SLOT, m.links + guard, 1, m.schedule + guard, 1, NULL, 0, answer);
    CHECK(answer_is(answer, 0, 7, 0, 0));
    CHECK(rest_kept(&m, 0, 0, 0));
    give_back(m);
}

int main(void) {
    const size_t guards[] = {64, 0};
    for (size_t k = 0; k < 2; k++) {
        guard = guards[k];
        for (size_t f = 0; f < FORM_COUNT; f++) {
            form = FORMS[f];
            p1_whole();
            p1_by_slots();
            p2_and_p3();
            replays();
            for (barrier = 6; barrier <= 7; barrier++) {
                reasons();
                pairs_of_reasons();
            }
            fence_checks();
            dead_code();
            blank_goals();
            empty_buffers();
            indexed_p1();
            indexed_by_slots();
            if (form.version == 1) continue;
            store_store_fence();
            group_reasons();
            group_slots();
            compare_exchange();
            later_fences();
        }
        refusals();
        limits();
        for (uint8_t version = 1; version <= 3; version++) long_threads(version);
        versions();
        all_versions();
        wide_file();
        operands();
        wide_buffering();
        wide_clauses();
        wide_adding();
        narrow_adding();
        wide_jumps();
        wide_comparing();
        wide_stores();
        full_buffers();
        all_registers();
        indexed_refusals();
        indexed_nothing();
    }
    printf("%d checks hold\n", checks);
    return 0;
}
