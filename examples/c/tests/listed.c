/* pk_pop_ahead by lists that a hostile caller made, while the guest changes its rings, beside
 * pk_pop. Two handles of two queues with the same numbers do the same: the first pops by a list of
 * loads ahead, the second by the bytes of those loads that are just the ones it is asked for, one
 * after another. After each call results, queues, handles and windows have to be the same. Rings
 * lie in several regions, with gaps, or behind an IOMMU's table; between pop and push regions and
 * mappings change. Loads, lists and bytes end at pages that can't be read. */
#include "chance.h"
#include "rings.h"
#include <stdio.h>
#include <stdlib.h>
#include <string.h>

enum { PAIRS = 3, MOST_SIZE = 64, MOST_LOADS = 2 * MOST_SIZE + 8, MOST_LIST = 4000, WINDOWS = 300 };
enum { LIST_BYTES = MOST_LOADS * PK_LOAD_MAX, ROOM = LIST_BYTES + 4 * PAGE };
enum { QUEUE_LEN = offsetof(struct pk_queue, pop_count) + 4 }; /* unused bytes follow */

/* Loads ahead. They end at `ahead_end`, their bytes at `bytes_end`. */
struct list {
    struct pk_load_ahead *ahead;
    uint8_t *bytes;
    size_t count, len;
};

/* Two handles that do the same: `ahead` by lists, `one` load by load. */
struct pair {
    struct pk_chain ahead, one;
    struct pk_pop_result pop;
};

static struct pk_device device = PK_DEVICE;
static struct pk_queue ahead_queue, one_queue;
static struct pk_iotlb ahead_table, one_table;
static struct pk_ring ring; /* of ahead_queue */
static struct pair pairs[PAIRS], *holder; /* it has the tables */
static uint8_t *ahead_end, *bytes_end, *load_end, request[PK_REQUEST_MAX];
static struct pk_load_ahead asked[MOST_LOADS]; /* what the second handle was asked for */
static unsigned long pops, done, whole, early, unclear, faults, missed, pushed, refused;

static void map_page(unsigned page) {
    uint64_t to = below(12) ? below(PAGES) : page;
    uint32_t access = below(10) ? PK_ACCESS_READ_WRITE : (uint32_t)below(4);
    uint64_t at = (uint64_t)page * PAGE;
    uint32_t status = pk_iotlb_map(&ahead_table, at, PAGE, to * PAGE, access);
    expect("a mapping", pk_iotlb_map(&one_table, at, PAGE, to * PAGE, access), status);
    if (status == PK_DONE) mapped[page] = access ? (unsigned)to : NOWHERE;
}

static void unmap_page(unsigned page) {
    uint32_t status = pk_iotlb_unmap(&ahead_table, (uint64_t)page * PAGE, PAGE);
    expect("no mapping", pk_iotlb_unmap(&one_table, (uint64_t)page * PAGE, PAGE), status);
    if (status == PK_DONE) mapped[page] = NOWHERE;
}

/* ------------------------------------------------------------- both are the same */

static void compare_windows(struct pair *pair, uint64_t from, uint64_t len) {
    static struct pk_window a[WINDOWS], b[WINDOWS];
    static struct pk_range c[WINDOWS], d[WINDOWS];
    size_t n = pk_request_windows(&pair->ahead, from, len, a, WINDOWS);
    expect("windows", pk_request_windows(&pair->one, from, len, b, WINDOWS), n);
    expect("the request's", memcmp(a, b, n * sizeof *a) != 0, 0);
    for (size_t k = 0; k < n; k++) expect("is mapped", is_mapped(a[k].at, a[k].len), 1);
    n = pk_reply_windows(&pair->ahead, from, len, a, WINDOWS);
    expect("windows", pk_reply_windows(&pair->one, from, len, b, WINDOWS), n);
    expect("the reply's", memcmp(a, b, n * sizeof *a) != 0, 0);
    for (size_t k = 0; k < n; k++) expect("is mapped", is_mapped(a[k].at, a[k].len), 1);
    n = pk_reply_ranges(&pair->ahead, from, len, c, WINDOWS);
    expect("ranges", pk_reply_ranges(&pair->one, from, len, d, WINDOWS), n);
    expect("the reply's", memcmp(c, d, n * sizeof *c) != 0, 0);
}

static void compare_pops(const struct pk_pop_result *a, const struct pk_pop_result *b) {
    expect("the load", a->load_at, b->load_at);
    expect("its length", a->load_len, b->load_len);
    expect("the request", a->request_len, b->request_len);
    expect("the reply", a->reply_len, b->reply_len);
    expect("the fault", a->fault, b->fault);
    expect("the head", a->head, b->head);
    expect("the ticket", a->ticket, b->ticket);
    expect("the miss", a->miss_at, b->miss_at);
    expect("the miss's length", a->miss_len, b->miss_len);
    expect("its access", a->miss_access, b->miss_access);
}

static void compare(struct pair *pair) {
    uint64_t at = below(PAGES * PAGE), len = below(2 * PAGE);
    expect("the queue", memcmp(&ahead_queue, &one_queue, QUEUE_LEN) != 0, 0);
    expect("the state", pk_chain_state(&pair->ahead), pk_chain_state(&pair->one));
    expect("the use", pk_uses(&pair->ahead, at, len), pk_uses(&pair->one, at, len));
    compare_windows(pair, below(3) ? 0 : below(300), below(3) ? UINT64_MAX : below(600));
}

static void compare_misses(struct pair *pair) {
    uint32_t status = PK_DONE;
    for (size_t index = 0; status != PK_IDLE; index++) {
        uint64_t from = 0;
        for (unsigned n = 0; n < 4; n++) {
            struct pk_miss a = {0, 0, 0}, b = {0, 0, 0};
            status = pk_find_miss(&pair->ahead, index, from, &a);
            expect("pk_miss", pk_find_miss(&pair->one, index, from, &b), status);
            expect("where", a.at, b.at);
            expect("how long", a.len, b.len);
            expect("by what", a.access, b.access);
            if (status != PK_MISS) break;
            from = a.at + a.len;
        }
    }
}

/* ------------------------------------------------------------- lists */

static struct list make_list(size_t count, size_t len) {
    struct pk_load_ahead *end = (struct pk_load_ahead *)(void *)ahead_end;
    return (struct list){end - count, bytes_end - len, count, len};
}

/* The loads that pk_pop makes of the rings as they are, by a handle and a queue that aren't
 * changed by it. */
static struct list list_of(struct pair *pair) {
    static uint8_t bytes[LIST_BYTES];
    struct pk_queue queue = one_queue;
    struct pk_pop_result pop;
    size_t count = 0, len = 0;
    uint32_t status = pk_pop(&pair->one, &queue, request, 0, &pop);
    while (status == PK_LOAD && count < MOST_LOADS && len + pop.load_len <= sizeof bytes) {
        uint8_t *to = bytes + len;
        expect("the load is mapped", is_mapped(pop.load_at, pop.load_len), 1);
        memcpy(to, (const void *)pop.load_at, pop.load_len);
        asked[count++] = (struct pk_load_ahead){pop.load_at, pop.load_len};
        len += pop.load_len;
        status = pk_pop(&pair->one, &queue, to, pop.load_len, &pop);
    }
    if (pk_chain_state(&pair->one) != PK_STATE_FREE) pk_abandon(&pair->one);
    struct list list = make_list(count, len);
    memcpy(list.ahead, asked, count * sizeof *asked);
    memcpy(list.bytes, bytes, len);
    return list;
}

/* Makes one load of a list another one. */
static void spoil_load(struct pk_load_ahead *one) {
    switch (below(8)) {
    case 0: one->at += 1 + below(16); break;
    case 1: one->at -= 1 + below(16); break;
    case 2: one->len -= below(one->len / 2 + 1); break;
    case 3: one->len += 1 + below(64); break;
    case 4: one->len = (size_t)ONE_OF(0, SIZE_MAX, SIZE_MAX / 2 + 1, SIZE_MAX - 15); break;
    case 5: one->at = (uintptr_t)ONE_OF(0, 1, UINTPTR_MAX, one->at ^ 1u << below(30)); break;
    case 6: one->at += one->len / 2, one->len -= one->len / 2; break; /* its second half */
    default: *one = (struct pk_load_ahead){0, 0};
    }
}

/* Moves loads of a list, with or without their bytes. */
static void reorder(struct list *list) {
    size_t i = below(list->count), j = below(list->count);
    struct pk_load_ahead one = list->ahead[i];
    switch (below(4)) {
    case 0: list->ahead[i] = list->ahead[j]; break;                            /* repeated */
    case 1: list->ahead[i] = list->ahead[j], list->ahead[j] = one; break;      /* exchanged */
    case 2: list->ahead++, list->count--; break;                               /* the first lacks */
    default: list->ahead++, list->count--, list->bytes += 2, list->len -= 2;   /* with its bytes */
    }
}

/* A list of great length: these loads over and over, and few bytes for them. */
static struct list lengthen(const struct list *list) {
    size_t count = list->count + below(MOST_LIST);
    struct list longer = make_list(MOST_LIST + MOST_LOADS, list->len);
    for (size_t k = 0; k < count && list->count; k++)
        longer.ahead[k] = k < list->count ? asked[k] : asked[below(list->count)];
    longer.count = list->count ? count : 0;
    return longer;
}

static void spoil(struct list *list) {
    for (uint64_t n = below(3); n > 0 && list->count; n--)
        if (below(2))
            spoil_load(&list->ahead[below(list->count)]);
        else if (list->len >= 2)
            reorder(list);
    if (below(6) == 0) list->count = below(list->count + 1);
    if (below(6) == 0) { /* the last bytes lack */
        size_t len = below(list->len + 1);
        memmove(bytes_end - len, list->bytes, len);
        list->bytes = bytes_end - len, list->len = len;
    }
    for (uint64_t n = below(3); n > 0 && list->len && below(2); n--)
        list->bytes[below(list->len)] = (uint8_t)ONE_OF(0, 1, 2, 4, 5, 16, chance());
}

/* ------------------------------------------------------------- a pop */

static void exchange(struct pair *pair, struct pair *next) {
    uint32_t status = pk_chain_exchange_iotlb(&pair->ahead, &ahead_table);
    expect("a lent table", pk_chain_exchange_iotlb(&pair->one, &one_table), status);
    if (status == PK_DONE) holder = next;
}

/* The tables are lent, unless another pair's pop that is under way has them, or the VMM forgot. */
static void lend(struct pair *pair) {
    if (has_iommu && !holder && below(30)) exchange(pair, pair);
}

static void take_back(void) {
    if (holder) exchange(holder, NULL);
}

static void drop(struct pair *pair) {
    uint32_t status = pk_drop(&pair->ahead, &ahead_queue);
    expect("pk_drop", pk_drop(&pair->one, &one_queue), status);
}

static void abandon(struct pair *pair) {
    pk_abandon(&pair->ahead);
    pk_abandon(&pair->one);
}

static bool is_next(const struct list *list, size_t k, size_t used,
                    const struct pk_pop_result *pop) {
    return k < list->count && list->ahead[k].at == pop->load_at &&
           list->ahead[k].len == pop->load_len && pop->load_len <= list->len - used;
}

/* The second handle pops by the bytes of a list, at most `most` of its loads. Returns how many it
 * took. */
static size_t pop_one_by_one(struct pair *pair, const struct list *list, size_t most,
                             uint32_t *status, struct pk_pop_result *pop, size_t *used) {
    size_t k = 0;
    *used = 0;
    *status = pk_pop(&pair->one, &one_queue, request, 0, pop);
    while (*status == PK_LOAD && k < most && is_next(list, k, *used, pop)) {
        const uint8_t *bytes = list->bytes + *used;
        asked[k < MOST_LOADS ? k : 0] = (struct pk_load_ahead){pop->load_at, pop->load_len};
        k++, *used += pop->load_len;
        *status = pk_pop(&pair->one, &one_queue, bytes, pop->load_len, pop);
    }
    return k;
}

/* The first handle may have stopped before a load that it could take, since its descriptors lacked
 * room, or the bytes lay in two regions. Then the second one stops there, too. */
static size_t stop_there(struct pair *pair, const struct list *list, size_t k, uint32_t ticket,
                         const struct pk_queue *before, const struct pk_pop_result *wanted,
                         uint32_t *status, struct pk_pop_result *pop, size_t *used) {
    while (k > 0 && (asked[k - 1].at != wanted->load_at || asked[k - 1].len != wanted->load_len))
        k--;
    expect("its load is one of the pop's", k > 0, 1);
    pk_abandon(&pair->one);
    one_queue = *before;
    expect("the ticket again", pk_chain_set_ticket(&pair->one, ticket), PK_DONE);
    early++;
    return pop_one_by_one(pair, list, k - 1, status, pop, used);
}

/* Whether a pop that took `k` loads asks for one that it asked for before: a chain may have a loop.
 * Then a result doesn't tell how many of the list's loads were taken. */
static bool is_repeated(size_t k, const struct pk_pop_result *pop) {
    for (size_t n = 0; n < k; n++)
        if (asked[n].at == pop->load_at && asked[n].len == pop->load_len) return true;
    return false;
}

/* Both go on by one load. Returns whether the pop goes on. */
static bool go_on(struct pair *pair, uint32_t *status, struct pk_pop_result *pop,
                  const uint8_t *listed) {
    uint8_t *bytes = load_end - pop->load_len;
    struct pk_pop_result other;
    expect("the load is mapped", is_mapped(pop->load_at, pop->load_len), 1);
    memcpy(bytes, listed ? listed : (const void *)pop->load_at, pop->load_len);
    if (below(40) == 0) scribble(&one_queue);
    if (below(40) == 0) {
        size_t wrong = below(PK_LOAD_MAX);
        wrong += wrong == pop->load_len;
        expect("wrong bytes", pk_pop(&pair->ahead, &ahead_queue, request, wrong, pop),
               pk_pop(&pair->one, &one_queue, request, wrong, &other));
        compare_pops(pop, &other);
        compare(pair);
    }
    if (below(60) == 0) drop(pair);
    if (below(60) == 0 || pk_chain_state(&pair->one) == PK_STATE_FREE) return false;
    size_t len = pop->load_len;
    *status = pk_pop(&pair->ahead, &ahead_queue, bytes, len, pop);
    expect("a load's pop", pk_pop(&pair->one, &one_queue, bytes, len, &other), *status);
    compare_pops(pop, &other);
    return *status == PK_LOAD;
}

static void count_pop(struct pair *pair, uint32_t status, bool was_whole) {
    done += status == PK_DONE, whole += status == PK_DONE && was_whole;
    faults += status == PK_DONE && pair->pop.fault;
    missed += status == PK_MISS, refused += status >= PK_STOPPED && status < PK_OUT_OF_MEMORY;
    if (status == PK_MISS) compare_misses(pair);
}

static void pop_by(struct pair *pair, const struct list *list) {
    struct pk_queue before = one_queue;
    struct pk_pop_result one;
    uint32_t ticket = (uint32_t)chance(), status, found;
    size_t used;
    expect("a ticket", pk_chain_set_ticket(&pair->ahead, ticket), PK_DONE);
    expect("a ticket", pk_chain_set_ticket(&pair->one, ticket), PK_DONE);
    found = pk_pop_ahead(&pair->ahead, &ahead_queue, list->ahead, list->count, list->bytes,
                         list->len, &pair->pop);
    size_t k = pop_one_by_one(pair, list, SIZE_MAX, &status, &one, &used);
    if (found == PK_LOAD && (status != PK_LOAD || pair->pop.load_at != one.load_at ||
                             pair->pop.load_len != one.load_len))
        k = stop_there(pair, list, k, ticket, &before, &pair->pop, &status, &one, &used);
    expect("pk_pop_ahead", found, status);
    compare_pops(&pair->pop, &one);
    compare(pair);
    ring.has_index = 0; /* the index was loaded otherwise */
    if (found == PK_LOAD && is_repeated(k, &pair->pop)) {
        unclear++;
        abandon(pair);
        return;
    }
    bool was_whole = found != PK_LOAD;
    for (bool goes = found == PK_LOAD; goes; k++) {
        const uint8_t *listed =
            is_next(list, k, used, &pair->pop) && below(2) ? list->bytes + used : NULL;
        used += listed ? pair->pop.load_len : 0;
        if (!listed) used = list->len; /* behind it no load is the list's */
        goes = go_on(pair, &found, &pair->pop, listed);
    }
    pops++;
    count_pop(pair, found, was_whole);
}

/* Pops a chain, by a list that is right or spoilt, of rings that change meanwhile. */
static void pop_listed(struct pair *pair) {
    struct list list;
    lend(pair);
    list = list_of(pair);
    if (below(8) == 0) list = lengthen(&list);
    if (below(8) == 0) list = make_list(0, 0);
    if (below(3)) spoil(&list);
    if (below(3) == 0) scribble(&one_queue);
    pop_by(pair, &list);
    if (below(12)) take_back();
}

/* A pop by pk_pop_ring, beside one that takes the same available index. */
static void pop_by_ring(struct pair *pair) {
    bool is_kept = ring.has_index && ring.reset_count == ahead_queue.reset_count &&
                   ring.index != ahead_queue.next_avail;
    uint16_t index = ring.index;
    uint32_t ticket = (uint32_t)chance(), status;
    struct pk_pop_result pop;
    lend(pair);
    expect("a ticket", pk_chain_set_ticket(&pair->ahead, ticket), PK_DONE);
    expect("a ticket", pk_chain_set_ticket(&pair->one, ticket), PK_DONE);
    status = pk_pop(&pair->one, &one_queue, request, 0, &pop);
    for (bool first = true; status == PK_LOAD; first = false) {
        uint8_t *bytes = load_end - pop.load_len;
        memcpy(bytes, (const void *)pop.load_at, pop.load_len);
        if (first && is_kept && ring.desc && pop.load_at == ring.avail + 2)
            memcpy(bytes, &index, 2);
        status = pk_pop(&pair->one, &one_queue, bytes, pop.load_len, &pop);
    }
    expect("pk_pop_ring", pk_pop_ring(&pair->ahead, &ahead_queue, &ring, &pair->pop), status);
    compare_pops(&pair->pop, &pop);
    compare(pair);
    pops++;
    count_pop(pair, status, false);
    if (below(12)) take_back();
}

/* A pop by a list is refused where none may begin, and changes nothing. */
static void pop_wrongly(struct pair *pair) {
    struct pk_queue before = ahead_queue, bad = ahead_queue;
    struct pk_pop_result pop, other;
    uint32_t state = pk_chain_state(&pair->one);
    struct list list = make_list(below(MOST_LOADS), below(LIST_BYTES));
    if (state != PK_STATE_FREE) {
        expect("it isn't free", pk_pop_ahead(&pair->ahead, &ahead_queue, list.ahead, list.count,
                                             list.bytes, list.len, &pop), PK_WRONG_ORDER);
        expect("its load", pop.load_at, state == PK_STATE_POPPING ? pair->pop.load_at : 0);
        expect("its length", pop.load_len, state == PK_STATE_POPPING ? pair->pop.load_len : 0);
        expect("no chain", pop.request_len | pop.reply_len | pop.head | pop.ticket, 0);
    }
    expect("the queue as before", memcmp(&ahead_queue, &before, QUEUE_LEN) != 0, 0);
    bad.size = (uint16_t)ONE_OF(0, 3, 0x8001, bad.size), bad.event_index = 2;
    uint32_t is_bad = bad.size == ahead_queue.size ? PK_BAD_EVENT_INDEX : PK_BAD_QUEUE_SIZE;
    expect("no queue", pk_pop_ahead(&pair->ahead, &bad, list.ahead, list.count, list.bytes,
                                    list.len, &pop), is_bad);
    expect("no queue", pk_pop(&pair->one, &bad, request, 0, &other), is_bad);
    compare_pops(&pop, &other);
    compare(pair);
}

/* ------------------------------------------------------------- behind a pop */

static void gather(struct pk_chain *chain, uint64_t from, uint64_t len) {
    static struct pk_window windows[WINDOWS];
    size_t count = pk_request_windows(chain, from, len, windows, WINDOWS);
    for (size_t k = 0; k < count; from += windows[k++].len)
        memcpy(request + from, (const void *)windows[k].at, windows[k].len);
}

static void decode(struct pair *pair) {
    struct pk_call a = {0}, b = {0};
    uint64_t len = pair->pop.request_len < PK_FIRST ? pair->pop.request_len : PK_FIRST, from = 0;
    uint32_t status;
    do {
        gather(&pair->one, from, len - from);
        status = pk_decode(&pair->ahead, &device, request, len, &a);
        expect("pk_decode", pk_decode(&pair->one, &device, request, len, &b), status);
        from = len, len = a.needed;
    } while (status == PK_MORE);
    expect("the call", a.kind, b.kind);
    expect("its answer", a.answer, b.answer);
    expect("its fault", a.fault, b.fault);
    expect("its node", a.node, b.node);
    expect("its data", a.data_at ^ b.data_at, a.data_len ^ b.data_len);
    expect("its ticket", a.ticket, b.ticket);
}

static void reply(struct pair *pair) {
    uint64_t len = below(pair->pop.reply_len + 2);
    uint32_t ticket = pair->pop.ticket, status;
    if (below(2)) {
        status = pk_reply_bytes(&pair->ahead, ticket, len);
        expect("pk_reply_bytes", pk_reply_bytes(&pair->one, ticket, len), status);
    }
    status = pk_reply_err(&pair->ahead, ticket, 5);
    expect("pk_reply_err", pk_reply_err(&pair->one, ticket, 5), status);
}

static void compare_stores(const struct pk_stores *a, const struct pk_stores *b, uint32_t status) {
    size_t first = offsetof(struct pk_stores, index) + 2; /* unused bytes follow */
    size_t others = sizeof *a - offsetof(struct pk_stores, seen_at);
    expect("the stores", memcmp(a, b, first) != 0, 0);
    expect("the others", memcmp(&a->seen_at, &b->seen_at, others) != 0, 0);
    if (status != PK_DONE) return;
    expect("the element is mapped", is_mapped(a->id_at, 4) && is_mapped(a->len_at, 4), 1);
    expect("the index is mapped", is_mapped(a->index_at, 2) && is_mapped(a->seen_at, 2), 1);
    memcpy((void *)a->id_at, &a->id, 4);
    memcpy((void *)a->len_at, &a->len, 4);
    memcpy((void *)a->index_at, &a->index, 2);
}

static void push(struct pair *pair) {
    uint8_t front[2][PK_FRONT_MAX] = {{0}}, notify[2] = {0};
    struct pk_stores stores[2];
    uint16_t seen = (uint16_t)(below(2) ? below(2) : chance());
    size_t room = below(8) ? PK_FRONT_MAX : below(PK_FRONT_MAX);
    memset(stores, 0, sizeof stores);
    lend(pair);
    uint32_t status = pk_push(&pair->ahead, &ahead_queue, front[0], room, &stores[0]);
    expect("pk_push", pk_push(&pair->one, &one_queue, front[1], room, &stores[1]), status);
    expect("the front", memcmp(front[0], front[1], PK_FRONT_MAX) != 0, 0);
    compare_stores(&stores[0], &stores[1], status);
    take_back();
    compare(pair);
    status = pk_pushed(&pair->ahead, &ahead_queue, seen, &notify[0]);
    expect("pk_pushed", pk_pushed(&pair->one, &one_queue, seen, &notify[1]), status);
    expect("the notification", notify[0], notify[1]);
    pushed += status == PK_DONE;
}

/* All regions, or all but one. A table that a handle has would go. */
static void set_memory(struct pair *pair) {
    struct pk_region fewer[REGIONS];
    size_t lacking = below(2) ? below(REGIONS) : REGIONS, count = 0;
    take_back();
    if (holder) return;
    for (size_t k = 0; k < region_count; k++)
        if (k != lacking || region_count == 1) fewer[count++] = regions[k];
    uint32_t status = pk_chain_set_memory(&pair->ahead, &device, fewer, count);
    expect("set_memory", pk_chain_set_memory(&pair->one, &device, fewer, count), status);
}

static void reset(void) {
    for (size_t k = 0; k < PAIRS && below(8); k++) abandon(&pairs[k]);
    take_back();
    uint16_t start = (uint16_t)(below(2) ? 0x10000 - below(8) : chance());
    expect("the reset", pk_queue_begin(&ahead_queue, start), PK_DONE);
    one_queue = ahead_queue;
    put(one_queue.avail + 2, start, 2);
}

static void act(struct pair *pair) {
    uint32_t state = pk_chain_state(&pair->one);
    if (below(2)) offer(&one_queue);
    if (below(4) == 0) scribble(&one_queue);
    if (has_iommu && below(3) == 0)
        (below(3) ? map_page : unmap_page)((unsigned)below(PAGES));
    if (below(30) == 0) set_memory(&pairs[below(PAIRS)]);
    if (below(30) == 0) pop_wrongly(pair);
    if (one_queue.stopped ? below(4) : below(60) == 0) reset();
    if (below(40) == 0) abandon(pair);
    if (below(20) == 0) drop(pair);
    if (pk_chain_state(&pair->one) != state) return;
    if (state == PK_STATE_FREE)
        below(5) ? pop_listed(pair) : pop_by_ring(pair);
    else if (state == PK_STATE_POPPING)
        while (go_on(pair, &(uint32_t){0}, &pair->pop, NULL)) {}
    else if (state == PK_STATE_POPPED)
        decode(pair);
    else if (state == PK_STATE_DECODED || state == PK_STATE_LISTING)
        reply(pair);
    else if (below(2))
        push(pair);
    else if (state == PK_STATE_PUSHING)
        abandon(pair);
    compare(pair);
}

static void begin_world(void) {
    has_iommu = below(3) == 0;
    lay_regions();
    expect("a table", pk_iotlb_new(&ahead_table) | pk_iotlb_new(&one_table), PK_DONE);
    for (unsigned page = 0; page < PAGES; page++) {
        mapped[page] = NOWHERE;
        if (has_iommu && below(20)) map_page(page);
    }
    ahead_queue = (struct pk_queue){.desc = 16 * below(3 * PAGE / 16),
                                    .avail = 5 * PAGE + 2 * below(PAGE),
                                    .used = 10 * PAGE + 4 * below(PAGE),
                                    .size = (uint16_t)(1u << below(7)),
                                    .event_index = (uint8_t)below(2)};
    ahead_queue.max_in_flight = (uint16_t)(below(ahead_queue.size) + 1);
    lay_tables();
    for (unsigned k = 0; k < PAIRS; k++) {
        pairs[k] = (struct pair){0};
        expect("memory", pk_chain_set_memory(&pairs[k].ahead, &device, regions, region_count), 0);
        expect("memory", pk_chain_set_memory(&pairs[k].one, &device, regions, region_count), 0);
    }
    reset();
    pk_ring_find(&ring, &ahead_queue, regions, region_count);
}

static void end_world(void) {
    for (unsigned k = 0; k < PAIRS; k++) abandon(&pairs[k]);
    take_back();
    for (unsigned k = 0; k < PAIRS; k++) {
        pk_chain_free(&pairs[k].ahead);
        pk_chain_free(&pairs[k].one);
    }
    pk_iotlb_free(&ahead_table);
    pk_iotlb_free(&one_table);
}

int main(int argc, char **argv) {
    unsigned long worlds = argc > 1 ? strtoul(argv[1], NULL, 10) : 1000;
    unsigned long seed = argc > 2 ? strtoul(argv[2], NULL, 10) : 1;
    ahead_end = guarded((MOST_LIST + 2 * MOST_LOADS) * sizeof(struct pk_load_ahead));
    bytes_end = guarded(ROOM);
    load_end = guarded(PK_LOAD_MAX);
    for (; world < worlds; world++) {
        chance_begin(0x9e3779b97f4a7c15u * (seed + world));
        begin_world();
        for (int k = 0; k < 60; k++) act(&pairs[below(PAIRS)]);
        end_world();
    }
    printf("listed: %lu pops, %lu chains of which %lu by one call and %lu faulty, %lu pops that "
           "stopped early, %lu unclear, %lu misses, %lu refusals, %lu pushes\n",
           pops, done, whole, faults, early, unclear, missed, refused, pushed);
    return 0;
}
