/* Requests that make a node, beside a plain model of their grammar (linux/fuse.h):
 *     extended [ROUNDS [SEED]]
 * Their names are followed by extensions: security contexts and groups, well made or not, of which
 * the session has agreed on one kind, on both or on none. Each fault, name, label and group that
 * pk_decode tells is compared with those of the model. */
#include "chance.h"
#include <pitskhomu.h>
#include <stdbool.h>
#include <stdio.h>
#include <stdlib.h>
#include <string.h>

enum { AVAIL = 0x1000, USED = 0x1100, REQUEST = 0x2000, REPLY = 0x3000, MEMORY = 0x4000 };
enum { SIZE = 4, MOST = 600, HEADER = 40, GROUPS = 32 };
enum { SYMLINK = 6, MKNOD = 8, MKDIR = 9, CREATE = 35 };

static const uint64_t CONTEXTS = UINT64_C(1) << 32, GROUP = UINT64_C(1) << 34;

static _Alignas(4096) uint8_t memory[MEMORY];
static const struct pk_region region = {.guest = 0, .len = MEMORY, .host = (uintptr_t)memory};
static struct pk_device device = PK_DEVICE;
static struct pk_queue queue;
static struct pk_chain chain;
static struct pk_call call;
static unsigned long round_of, good, faulty;
static uint8_t request[MOST + 64];
static size_t request_len;

/* What the model reads. */
static struct {
    struct pk_span names[2], label_name, label;
    bool has_context, has_label, has_group;
    uint32_t group;
} wanted;

static void expect(const char *what, uint64_t found, uint64_t expected) {
    if (found == expected) return;
    fprintf(stderr, "FAILED in round %lu: %s: %llx, and not %llx\n", round_of, what,
            (unsigned long long)found, (unsigned long long)expected);
    abort();
}

/* ------------------------------------------------------------- the model */

static uint32_t word_at(size_t at) {
    uint32_t word;
    memcpy(&word, request + at, 4);
    return word;
}

/* Where the zero byte of a name is, or `end`. */
static size_t zero_from(size_t at, size_t end) {
    while (at < end && request[at]) at++;
    return at;
}

static uint32_t read_context(uint32_t kind, size_t at, size_t end) {
    if (!(device.options & CONTEXTS) || wanted.has_context || kind > 1) return PK_REQUEST_DECODE;
    wanted.has_context = true;
    if (kind == 0) return 0;
    if (end - at < 8 || word_at(at) == 0) return PK_REQUEST_DECODE;
    if (end - at == 8) return PK_REQUEST_MISSING_PARAMETER;
    uint32_t len = word_at(at);
    size_t zero = zero_from(at + 8, end);
    if (zero == end || end - zero - 1 < len) return PK_REQUEST_DECODE;
    wanted.has_label = true;
    wanted.label_name = (struct pk_span){(uint32_t)at + 8, (uint32_t)(zero - at - 8)};
    wanted.label = (struct pk_span){(uint32_t)zero + 1, len};
    return 0;
}

static uint32_t read_group(size_t at, size_t end) {
    if (!(device.options & GROUP) || wanted.has_group || end - at < 8 || word_at(at) != 1)
        return PK_REQUEST_DECODE;
    wanted.has_group = true;
    wanted.group = word_at(at + 4);
    return 0;
}

static uint32_t read_extensions(size_t at, size_t end) {
    if (!(device.options & (CONTEXTS | GROUP))) return 0;
    while (at < end) {
        if (end - at < 8) return PK_REQUEST_DECODE;
        uint32_t size = word_at(at), kind = word_at(at + 4), fault;
        if (size < 8) return PK_REQUEST_HEADER_LENGTH;
        if (size > end - at || kind > GROUPS) return PK_REQUEST_DECODE;
        fault =
            kind == GROUPS ? read_group(at + 8, at + size) : read_context(kind, at + 8, at + size);
        if (fault) return fault;
        at += size;
    }
    return device.options & CONTEXTS && !wanted.has_context ? PK_REQUEST_MISSING_EXTENSION : 0;
}

/* The fault of a request whose record has so many bytes, and whose names so many. */
static uint32_t read_request(size_t record, unsigned names) {
    size_t told = word_at(0), at = HEADER + record, end = told;
    bool has_zeros = true;
    if (told < at) return request_len < at ? PK_REQUEST_DECODE : PK_REQUEST_HEADER_LENGTH;
    if (told > request_len) return PK_REQUEST_DECODE;
    for (unsigned k = 0; k < names; k++) {
        if (at == end) return PK_REQUEST_MISSING_PARAMETER;
        size_t zero = zero_from(at, end);
        wanted.names[k] = (struct pk_span){(uint32_t)at, (uint32_t)(zero - at)};
        has_zeros = has_zeros && zero < end;
        at = zero < end ? zero + 1 : end;
    }
    uint32_t fault = read_extensions(at, end);
    return fault ? fault : has_zeros ? 0 : PK_REQUEST_NAME;
}

/* ------------------------------------------------------------- the guest */

static void add(const void *bytes, size_t len) {
    memcpy(request + request_len, bytes, len);
    request_len += len;
}

static void add_word(uint64_t word) { add(&(uint32_t){(uint32_t)word}, 4); }

static void add_name(void) {
    uint8_t name[40];
    size_t len = below(4) ? 1 + below(8) : below(40);
    memset(name, 'a' + (int)below(26), sizeof name);
    add(name, len);
    if (below(30)) add("", 1);
}

static void add_extension(void) {
    static const uint8_t bytes[24];
    size_t begin = request_len;
    uint64_t kind = ONE_OF(0, 1, 1, 1, GROUPS, GROUPS, 2, 31, 33, chance());
    add_word(0);
    add_word(below(12) ? kind : kind % 33);
    if (kind == GROUPS) {
        add_word(below(8) ? 1 : below(3));
        if (below(12)) add_word(chance());
    } else if (kind != 0 || below(9) == 0) {
        uint32_t len = (uint32_t)below(20);
        add_word(below(8) ? len : ONE_OF(0, len + 1, chance()));
        if (below(15)) add_word(0);
        if (below(12)) add_name();
        add(bytes, below(12) ? len : below(24));
    }
    if (below(6) == 0) add(bytes, below(9));
    uint32_t size = (uint32_t)(request_len - begin);
    if (below(15) == 0) size = (uint32_t)ONE_OF(0, 7, 8, size - 1, size + 1, chance());
    memcpy(request + begin, &size, 4);
}

/* A request of an opcode. Returns its record's length. */
static size_t make(uint32_t opcode) {
    size_t record = opcode == SYMLINK ? 0 : opcode == MKDIR ? 8 : 16;
    memset(request, 0, sizeof request);
    request_len = HEADER;
    for (size_t k = 0; k < record; k += 4) add_word(chance());
    if (below(40)) add_name();
    if (opcode == SYMLINK && below(40)) add_name();
    for (uint64_t k = ONE_OF(0, 1, 1, 1, 2, 2, 3); k > 0; k--) add_extension();
    if (below(12) == 0) add("12345678", 1 + below(8));
    uint32_t told = (uint32_t)request_len;
    if (below(15) == 0)
        told = (uint32_t)ONE_OF(told - 1, told + 1, told + 0x10000, told - 8, HEADER,
                                HEADER + record, 0);
    memcpy(request, &told, 4);
    memcpy(request + 4, &opcode, 4);
    return record;
}

/* ------------------------------------------------------------- rounds */

static void store(size_t at, uint64_t value, size_t len) { memcpy(memory + at, &value, len); }

static void pop(void) {
    static uint8_t bytes[PK_LOAD_MAX];
    struct pk_pop_result step;
    size_t len = 0;
    uint32_t status;
    store(0, REQUEST, 8);
    store(8, request_len | UINT64_C(1) << 32 | UINT64_C(1) << 48, 8);
    store(16, REPLY, 8);
    store(24, 0x200 | UINT64_C(2) << 32, 8);
    store(AVAIL + 4 + 2 * (queue.next_avail % (size_t)SIZE), 0, 2);
    store(AVAIL + 2, queue.next_avail + 1u, 2);
    while ((status = pk_pop(&chain, &queue, bytes, len, &step)) == PK_LOAD)
        memcpy(bytes, (const void *)step.load_at, len = step.load_len);
    expect("the pop", status, PK_DONE);
}

static void check_span(const char *what, struct pk_span found, struct pk_span expected) {
    expect(what, found.at, expected.at);
    expect(what, found.len, expected.len);
}

static void play_round(void) {
    uint32_t opcode = (uint32_t)ONE_OF(SYMLINK, MKNOD, MKDIR, CREATE);
    size_t have, record = make(opcode);
    device.options = ONE_OF(0, CONTEXTS, GROUP, CONTEXTS | GROUP, CONTEXTS | GROUP);
    uint64_t number = chance();
    memcpy(request + 8, &number, 8);
    memset(&wanted, 0, sizeof wanted);
    uint32_t fault = read_request(record, opcode == SYMLINK ? 2 : 1), status;
    pop();
    have = request_len < PK_FIRST ? request_len : PK_FIRST;
    status = pk_decode(&chain, &device, request, have, &call);
    if (status == PK_MORE) status = pk_decode(&chain, &device, request, request_len, &call);
    expect("the request", status, PK_DONE);
    expect("its fault", call.fault, fault);
    expect("its opcode", call.opcode, opcode);
    expect("its number", call.unique, number);
    expect("its kind", call.kind, fault ? PK_CALL_NONE : opcode);
    faulty += fault != 0, good += fault == 0;
    if (fault == 0) {
        check_span("its name", call.name, wanted.names[0]);
        check_span("where it leads", call.value, wanted.names[1]);
        check_span("its label's name", call.label_name, wanted.label_name);
        check_span("its label", call.label, wanted.label);
        expect("whether it has a label", call.has_label, wanted.has_label);
        expect("whether it has a group", call.has_group, wanted.has_group);
        expect("its group", call.group, wanted.group);
    }
    pk_abandon(&chain);
    expect("a queue", pk_queue_begin(&queue, 0), PK_DONE);
}

int main(int argc, char **argv) {
    unsigned long rounds = argc > 1 ? strtoul(argv[1], NULL, 10) : 20000;
    unsigned long seed = argc > 2 ? strtoul(argv[2], NULL, 10) : 1;
    queue = (struct pk_queue){.desc = 0, .avail = AVAIL, .used = USED, .size = SIZE};
    expect("a queue", pk_queue_begin(&queue, 0), PK_DONE);
    expect("the memory", pk_chain_set_memory(&chain, &device, &region, 1), PK_DONE);
    for (; round_of < rounds; round_of++) {
        chance_begin(0x9e3779b97f4a7c15u * (seed + round_of));
        for (int k = 0; k < 8; k++) chance();
        play_round();
    }
    pk_chain_free(&chain);
    printf("extended: %lu requests, %lu faulty ones\n", good, faulty);
    return 0;
}
