/* Calls are watched, and the library's requests for memory refused (watched.h). */
#include "watched.h"
#include <stdio.h>
#include <stdlib.h>
#include <string.h>

/* ------------------------------------------------------------- memory that is refused */

struct heap heap;

static bool is_refused(void) {
    heap.made++;
    bool is_meant = heap.made == heap.number || (heap.goes_on && heap.made > heap.number);
    if (heap.number == 0 || !heap.refuses || !is_meant) return false;
    heap.refused++;
    return true;
}

/* The linker's --wrap directs the library's calls here, by these names. */
void *__real_malloc(size_t len);
void *__real_realloc(void *block, size_t len);
void __real_free(void *block);

void *__wrap_malloc(size_t len) {
    void *made = is_refused() ? NULL : __real_malloc(len);
    heap.held += made != NULL;
    return made;
}

void *__wrap_realloc(void *block, size_t len) {
    void *made = is_refused() ? NULL : __real_realloc(block, len);
    heap.held += made != NULL && block == NULL;
    return made;
}

void __wrap_free(void *block) {
    heap.held -= block != NULL;
    __real_free(block);
}

/* ------------------------------------------------------------- the memory that is lent */

struct world now;
/* `after` is the world after each call, if no request is refused. */
static struct world before, after[CALLS];
struct pk_chain chains[HANDLES], *chain = chains;
uint32_t tickets[HANDLES];
size_t at_call, call_count;

#define PLACE(member) offsetof(struct world, member), sizeof now.member
#define FIELD(member) \
    { #member, PLACE(member) }
#define FIELDS(first, last) \
    { \
#first " to " #last, offsetof(struct world, first), \
            offsetof(struct world, last) + sizeof now.last - offsetof(struct world, first) \
    }

/* The bytes that are compared: structs without their padding. */
static const struct {
    const char *name;
    size_t at, len;
} fields[] = {
    FIELD(pages),
    FIELD(device),
    FIELD(moved),
    FIELD(queues),
    FIELD(restored),
    FIELDS(step.load_at, step.head),
    FIELD(step.ticket),
    FIELDS(call.kind, call.fault),
    FIELDS(call.unique, call.has_group),
    FIELDS(call.attr, call.has_label),
    FIELDS(stores.front_len, stores.index),
    FIELDS(stores.seen_at, stores.index_guest),
    FIELD(listed),
    FIELD(len),
    FIELD(count),
    FIELD(front),
    FIELD(list),
    FIELD(record),
    FIELD(notify),
    FIELDS(seen.pop, seen.answer),
    FIELDS(seen.wanted.load_at, seen.wanted.head),
    FIELD(seen.wanted.ticket),
    FIELDS(seen.first.load_at, seen.first.head),
    FIELD(seen.first.ticket),
    FIELDS(seen.request_count, seen.ranges),
};

/* Returns a part that differs, or NULL. */
static const char *differs(const struct world *a, const struct world *b) {
    for (size_t k = 0; k < sizeof fields / sizeof fields[0]; k++)
        if (memcmp((const uint8_t *)a + fields[k].at, (const uint8_t *)b + fields[k].at,
                   fields[k].len))
            return fields[k].name;
    return NULL;
}

/* ------------------------------------------------------------- calls */

const struct watched kinds[KINDS] = {
    [SET_MEMORY] = {"pk_chain_set_memory", PK_OUT_OF_MEMORY, .stays = true},
    [POP] = {"pk_pop", PK_OUT_OF_MEMORY, PLACE(step), .stays = true},
    [SAVE] = {"pk_save", PK_OUT_OF_MEMORY, PLACE(len), .stays = false},
    [RESTORE] = {"pk_restore", PK_RECORD_OUT_OF_MEMORY, PLACE(count), .stays = false},
    [DECODE] = {.name = "pk_decode"},
    [DROP] = {.name = "pk_drop"},
    [REPLY] = {.name = "an answer"},
    [PUSH] = {.name = "pk_push"},
    [PUSHED] = {.name = "pk_pushed"},
    [NOTIFICATION] = {.name = "pk_set_notification"},
    [FREE] = {.name = "pk_chain_free"},
};

/* The call that is made, its row, whether it is made again, and the counts of requests before. */
enum kind kind;
const char *row_name;
static bool is_again;
static uint64_t made_before, refused_before;
uint64_t requests[KINDS];

_Noreturn void wrong(const char *what, const char *more) {
    fprintf(stderr, "FAILED: %s, call %zu, %s: %s%s", row_name, at_call, kinds[kind].name, what,
            more);
    if (heap.number > 0)
        fprintf(stderr, " (refused is request %llu%s)", (unsigned long long)heap.number,
                heap.goes_on ? " with those behind it" : "");
    fprintf(stderr, "\n");
    exit(1);
}

static _Noreturn void wrong_status(uint32_t status, uint32_t wanted) {
    char what[64];
    snprintf(what, sizeof what, "it returns %s, and not ", pk_status_name(status));
    wrong(what, pk_status_name(wanted));
}

/* A pop is passed more bytes than a load has, a decode more than a request has, and an answer is of
 * another kind. So each reports the chain's state, and does nothing. With a free handle a pop
 * begins, which shows its regions. */
void look(void) {
    static const uint8_t nothing[NO_LOAD];
    struct seen *seen = &now.seen;
    struct pk_queue *queue = &now.queues[0];
    struct pk_call call;
    uint64_t made = heap.made;
    memset(seen, 0, sizeof *seen);
    seen->pop = pk_pop(chain, queue, nothing, sizeof nothing, &seen->wanted);
    if (seen->pop == PK_BAD_ARGUMENT && seen->wanted.load_len == 0) {
        seen->begun = pk_pop(chain, queue, nothing, 0, &seen->first);
        (void)pk_drop(chain, queue);
    }
    seen->decode = pk_decode(chain, &now.device, nothing, sizeof nothing, &call);
    bool is_seek = now.call.answer == PK_ANSWER_LSEEK;
    seen->answer = is_seek ? pk_reply_open(chain, tickets[chain - chains], 1, 0)
                            : pk_reply_lseek(chain, tickets[chain - chains], 1);
    seen->request_count = pk_request_windows(chain, 0, UINT64_MAX, seen->request, WINDOWS);
    seen->room_count = pk_reply_windows(chain, 0, UINT64_MAX, seen->room, WINDOWS);
    seen->range_count = pk_reply_ranges(chain, 0, UINT64_MAX, seen->ranges, WINDOWS);
    if (heap.made != made) wrong("a look at the handle requests memory", "");
}

void begin(enum kind next) {
    kind = next;
    before = now;
    memset((uint8_t *)&now + kinds[kind].at, JUNK, kinds[kind].len);
    made_before = heap.made;
    refused_before = heap.refused;
    heap.refuses = !is_again;
}

/* One request was refused: the call reports it, and did nothing. */
static void check_refused(void) {
    uint64_t refused = heap.refused - refused_before;
    if (now.status != kinds[kind].refusal) wrong_status(now.status, kinds[kind].refusal);
    if (refused > 1) wrong("it requests more memory after a refusal", "");
    if (!kinds[kind].stays) memset((uint8_t *)&before + kinds[kind].at, 0, kinds[kind].len);
    const char *field = differs(&before, &now);
    if (field) wrong("an allocation failed, and this is wrong: ", field);
}

/* The status is the script's, and the world as it is after this call if no request is refused. */
static void check_done(uint32_t wanted) {
    if (heap.number == 0) {
        if (now.status != wanted) wrong_status(now.status, wanted);
        if (at_call == CALLS) wrong("the script has too many calls", "");
        requests[kind] += heap.made - made_before;
        after[at_call] = now;
        return;
    }
    if (at_call == call_count) wrong("the script has another call", "");
    if (now.status != after[at_call].status) wrong_status(now.status, after[at_call].status);
    const char *field = differs(&after[at_call], &now);
    if (field) wrong("other than without a refused request: ", field);
}

bool again(uint32_t status, uint32_t wanted) {
    bool asked = heap.made > made_before;
    heap.refuses = false;
    now.status = status;
    look();
    if (asked && kinds[kind].refusal == 0) wrong("it requests memory", "");
    if (heap.refused > refused_before) {
        check_refused();
        return is_again = true;
    }
    is_again = false;
    if (asked && (status == PK_BAD_ARGUMENT || status == PK_WRONG_ORDER || status == PK_MORE))
        wrong("it requests memory before it returns ", pk_status_name(status));
    if (status != PK_DONE && status == kinds[kind].refusal)
        wrong("no request was refused, and it returns ", pk_status_name(status));
    check_done(wanted);
    at_call++;
    return false;
}
