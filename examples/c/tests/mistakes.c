/* The mistakes of a first day with pitskhomu.h. Each has a status of its own, which pk_status_name
 * prints, and after it is mended the same call succeeds. Then a READ that is answered with more
 * data than its reply buffer holds. Then pointers that are NULL with length 0: each call does what
 * it does with any other pointer and length 0. */
#include <pitskhomu.h>
#include <stdio.h>
#include <stdlib.h>
#include <string.h>

enum { PAGE = 4096, MEMORY = 8 * PAGE, SIZE = 8, REQUEST_LEN = 80 };
enum { READLINK = 5, READ = 15, READDIR = 28 }; /* enum fuse_opcode */
enum { ASKED = 0x80 }; /* bytes that the guest asks for */
enum { DESC = 0x1000, AVAIL = 0x2000, USED = 0x3000, REQUEST = 0x4000, REPLY = 0x5000 };

static _Alignas(PAGE) uint8_t memory[MEMORY];
static const struct pk_device right_device = PK_DEVICE;
static const struct pk_queue right_queue = {
    .desc = DESC, .avail = AVAIL, .used = USED, .size = SIZE, .max_in_flight = 2};

static void expect(const char *what, uint64_t found, uint64_t wanted) {
    if (found == wanted) return;
    fprintf(stderr, "FAILED: %s: %llu, and not %llu\n", what, (unsigned long long)found,
            (unsigned long long)wanted);
    exit(1);
}

/* A mistake is found by its number, and printed by its name. */
static void finds(uint32_t status, uint32_t number, const char *name) {
    expect(name, status, number);
    if (strcmp(pk_status_name(status), name) == 0) return;
    fprintf(stderr, "FAILED: %u is %s, and not %s\n", status, pk_status_name(status), name);
    exit(1);
}

/* ------------------------------------------------------------- a device and its memory */

static struct pk_region region(uint64_t guest, uint64_t len, uintptr_t at) {
    return (struct pk_region){.guest = guest, .len = len, .host = (uintptr_t)memory + at};
}

/* The status of a new handle over these regions. Then it gets the right ones. */
static uint32_t memory_status(const struct pk_device *device, struct pk_region one,
                              struct pk_region two) {
    const struct pk_region regions[] = {one, two}, right = region(0, MEMORY, 0);
    struct pk_chain chain = {0};
    uint32_t status = pk_chain_set_memory(&chain, device, regions, 2);
    expect("it has no memory", pk_chain_state(&chain), PK_STATE_NONE);
    expect("the right one", pk_chain_set_memory(&chain, &right_device, &right, 1), PK_DONE);
    pk_chain_free(&chain);
    return status;
}

static uint32_t region_status(struct pk_region one) {
    return memory_status(&right_device, region(0x100000, PAGE, 0), one);
}

static void set_memory(void) {
    static struct pk_region many[PK_REGIONS_MAX + 1];
    const struct pk_region good = region(0, PAGE, 0);
    const struct pk_device zeroed = {0, 0, 0}, short_limit = {PAGE, PK_REQUEST_MAX - 1, 0};
    struct pk_chain chain = {0};
    finds(memory_status(&zeroed, good, good), 96, "PK_BAD_DEVICE");
    finds(memory_status(&short_limit, good, good), 96, "PK_BAD_DEVICE");
    finds(region_status(region(0, 0, 0)), 104, "PK_EMPTY_REGION");
    finds(region_status(region(0, PAGE, 16)), 105, "PK_BAD_REGION_HOST"); /* malloc's */
    finds(region_status(region(0xa0800, PAGE, 0)), 106, "PK_BAD_REGION_GUEST");
    finds(region_status(region(0, PAGE + 512, 0)), 107, "PK_BAD_REGION_LEN");
    finds(region_status(region(0 - (uint64_t)PAGE, 2 * PAGE, 0)), 108, "PK_BAD_REGION_END");
    finds(memory_status(&right_device, region(0, 2 * PAGE, 0), region(PAGE, PAGE, 2 * PAGE)), 110,
          "PK_REGIONS_OVERLAP");
    for (size_t k = 0; k <= PK_REGIONS_MAX; k++) many[k] = region(PAGE * k, PAGE, 0);
    finds(pk_chain_set_memory(&chain, &right_device, many, PK_REGIONS_MAX + 1), 109,
          "PK_TOO_MANY_REGIONS");
    expect("as many as there may be",
           pk_chain_set_memory(&chain, &right_device, many, PK_REGIONS_MAX), PK_DONE);
    pk_chain_free(&chain);
}

/* Of several mistakes the first in the header's order is found. */
static void first_of_several(void) {
    const struct pk_device zeroed = {0, 0, 0};
    const struct pk_region bad = {.guest = 1, .len = 0, .host = 1}, end = region(0, PAGE, 8);
    finds(memory_status(&zeroed, bad, bad), 96, "PK_BAD_DEVICE");
    finds(memory_status(&right_device, bad, end), 104, "PK_EMPTY_REGION");
    finds(memory_status(&right_device, end, bad), 105, "PK_BAD_REGION_HOST");
}

/* ------------------------------------------------------------- a queue */

/* The status of pk_queue_begin, which refuses a queue and doesn't change it. */
static uint32_t begin_status(struct pk_queue queue) {
    struct pk_queue before = queue;
    uint32_t status = pk_queue_begin(&queue, 0);
    expect("the queue", memcmp(&before, &queue, sizeof queue) != 0, status == PK_DONE);
    return status;
}

static void begin_queue(void) {
    struct pk_queue q = right_queue;
    q.size = 100, finds(begin_status(q), 97, "PK_BAD_QUEUE_SIZE");
    q.size = 0, finds(begin_status(q), 97, "PK_BAD_QUEUE_SIZE");
    q = right_queue, q.desc += 8, finds(begin_status(q), 98, "PK_BAD_QUEUE_ALIGNMENT");
    q = right_queue, q.used += 2, finds(begin_status(q), 98, "PK_BAD_QUEUE_ALIGNMENT");
    q = right_queue, q.desc = 0 - (uint64_t)64, finds(begin_status(q), 99, "PK_BAD_QUEUE_END");
    q = right_queue, q.max_in_flight = SIZE + 1;
    finds(begin_status(q), 100, "PK_BAD_MAX_IN_FLIGHT");
    q = right_queue, q.event_index = 29, finds(begin_status(q), 101, "PK_BAD_EVENT_INDEX");
    finds(begin_status(right_queue), 0, "PK_DONE");
}

/* Each call with a queue refuses a wrong one by its cause. */
static void use_queue(struct pk_chain *chain) {
    struct pk_queue q = right_queue;
    struct pk_pop_result pop;
    struct pk_store store;
    uint8_t record[96];
    size_t len;
    finds(pk_pop(chain, &q, NULL, 0, &pop), 103, "PK_QUEUE_NOT_BEGUN");
    expect("a queue", pk_queue_begin(&q, 0), PK_DONE);
    q.max_in_flight = SIZE + 1;
    finds(pk_pop(chain, &q, NULL, 0, &pop), 100, "PK_BAD_MAX_IN_FLIGHT");
    finds(pk_set_notification(chain, &q, 1, &store), 100, "PK_BAD_MAX_IN_FLIGHT");
    finds(pk_save(&right_device, &q, 1, record, sizeof record, &len), 100, "PK_BAD_MAX_IN_FLIGHT");
    q.max_in_flight = 2, q.pushing = 0xcc;
    finds(pk_pop(chain, &q, NULL, 0, &pop), 102, "PK_BAD_QUEUE_STATE");
    q.pushing = 0;
    expect("a load", pk_pop(chain, &q, NULL, 0, &pop), PK_LOAD);
    expect("it ends", pk_drop(chain, &q), PK_DONE);
}

/* ------------------------------------------------------------- a chain */

static void put(size_t at, uint64_t value, size_t len) { memcpy(memory + at, &value, len); }

/* The driver makes a READ or a READDIR available, as the first chain, with its reply buffer. */
static void offer(uint32_t opcode, uint32_t reply_len) {
    put(REQUEST, REQUEST_LEN, 4), put(REQUEST + 4, opcode, 4), put(REQUEST + 16, 1, 8);
    put(REQUEST + 56, ASKED, 4);
    put(DESC, REQUEST, 8), put(DESC + 8, REQUEST_LEN, 4), put(DESC + 12, 1, 2);
    put(DESC + 14, 1, 2), put(DESC + 16, REPLY, 8), put(DESC + 24, reply_len, 4);
    put(DESC + 28, 2, 2), put(AVAIL + 2, 1, 2);
}

static uint32_t pop_all(struct pk_chain *chain, struct pk_queue *q, struct pk_pop_result *pop) {
    uint8_t bytes[PK_LOAD_MAX];
    uint32_t status = pk_pop_ahead(chain, q, NULL, 0, NULL, 0, pop);
    while (status == PK_LOAD) {
        memcpy(bytes, (const void *)pop->load_at, pop->load_len);
        status = pk_pop(chain, q, bytes, pop->load_len, pop);
    }
    return status;
}

static void end(struct pk_chain *chain, struct pk_queue *q) {
    struct pk_stores stores;
    uint8_t front[PK_FRONT_MAX], notify;
    expect("a push", pk_push(chain, q, front, sizeof front, &stores), PK_DONE);
    expect("its end", pk_pushed(chain, q, 0, &notify), PK_DONE);
}

/* ------------------------------------------------------------- too much data */

/* A READ in a reply buffer with room for so much data. One byte more is refused as too long, and an
 * answer of another kind as that. */
static void read_too_much(struct pk_chain *chain, uint32_t data_len) {
    struct pk_device device = PK_DEVICE;
    struct pk_queue q = right_queue;
    struct pk_pop_result pop;
    struct pk_call call;
    expect("a queue", pk_queue_begin(&q, 0), PK_DONE);
    offer(READ, 16 + data_len);
    expect("a pop", pop_all(chain, &q, &pop), PK_DONE);
    expect("no call", pk_reply_data(chain, pop.ticket, ASKED + 1), PK_WRONG_ORDER);
    expect("a READ", pk_decode(chain, &device, memory + REQUEST, REQUEST_LEN, &call), PK_DONE);
    expect("its data", call.data_len, data_len);
    expect("a late answer", pk_reply_data(chain, call.ticket + 1, data_len + 1), PK_OTHER_CALL);
    finds(pk_reply_data(chain, call.ticket, data_len + 1), 71, "PK_LONG_REPLY");
    finds(pk_reply_data(chain, call.ticket, UINT64_MAX), 71, "PK_LONG_REPLY");
    finds(pk_reply_write(chain, call.ticket, 1), 75, "PK_OTHER_KIND");
    expect("as much as it may be", pk_reply_data(chain, call.ticket, data_len), PK_DONE);
    end(chain, &q);
}

/* No call but READ has a number of bytes that it can be answered with: a link may be as long as the
 * reply buffer. */
static void read_long_link(struct pk_chain *chain) {
    struct pk_device device = PK_DEVICE;
    struct pk_queue q = right_queue;
    struct pk_pop_result pop;
    struct pk_call call;
    expect("a queue", pk_queue_begin(&q, 0), PK_DONE);
    offer(READLINK, 16 + PAGE + 1);
    expect("a pop", pop_all(chain, &q, &pop), PK_DONE);
    expect("a link", pk_decode(chain, &device, memory + REQUEST, REQUEST_LEN, &call), PK_DONE);
    expect("more than a page", pk_reply_data(chain, call.ticket, PAGE + 1), PK_DONE);
    end(chain, &q);
}

/* ------------------------------------------------------------- NULL with length 0 */

static void pass_nothing(struct pk_chain *chain) {
    struct pk_device device = PK_DEVICE;
    struct pk_queue q = right_queue;
    struct pk_pop_result pop;
    struct pk_call call;
    struct pk_stores stores;
    uint8_t list[9];
    size_t len = 1;
    expect("no name", pk_is_name(NULL, 0), 0);
    expect("no buffer", pk_save(&device, &q, 1, NULL, 0, &len), PK_SHORT_BUFFER);
    expect("the record", len, 64);
    expect("no queues", pk_save(&device, NULL, 0, NULL, 0, &len), PK_BAD_ARGUMENT);
    expect("no record", pk_restore(&device, NULL, 0, NULL, 0, &len), PK_RECORD_TRUNCATED);
    expect("a queue", pk_queue_begin(&q, 0), PK_DONE);
    offer(READDIR, 16 + ASKED);
    expect("a pop", pop_all(chain, &q, &pop), PK_DONE);
    expect("no windows", pk_request_windows(chain, 0, 80, NULL, 0), 0);
    expect("no windows", pk_reply_windows(chain, 0, 80, NULL, 0), 0);
    expect("no ranges", pk_reply_ranges(chain, 0, 80, NULL, 0), 0);
    expect("no request", pk_decode(chain, &device, NULL, 0, &call), PK_MORE);
    expect("the request", pk_decode(chain, &device, memory + REQUEST, REQUEST_LEN, &call), PK_DONE);
    expect("no name", pk_add_direntry(chain, call.ticket, list, sizeof list, NULL, 0, 1, 1, 4),
           PK_BAD_ARGUMENT);
    expect("no list",
           pk_add_direntry(chain, call.ticket, NULL, 0, (const uint8_t *)"a", 1, 1, 1, 4),
           PK_SHORT_BUFFER);
    expect("no entries", pk_reply_entries(chain, call.ticket, &(uint64_t){9}), PK_DONE);
    expect("no front", pk_push(chain, &q, NULL, 0, &stores), PK_SHORT_BUFFER);
    end(chain, &q);
    expect("no regions", pk_chain_set_memory(chain, &device, NULL, 0), PK_DONE);
}

int main(void) {
    const struct pk_region all = region(0, MEMORY, 0);
    struct pk_chain chain = {0};
    set_memory();
    first_of_several();
    begin_queue();
    expect("the memory", pk_chain_set_memory(&chain, &right_device, &all, 1), PK_DONE);
    use_queue(&chain);
    read_too_much(&chain, ASKED);
    read_too_much(&chain, ASKED / 2);
    read_long_link(&chain);
    pass_nothing(&chain);
    pk_chain_free(&chain);
    printf("each mistake of a first day has a number of its own\n");
    return 0;
}
