/* The loop of a queue's threads: a thread does what pitskhomu_turns.h returns. */
#include "live.h"
#include <errno.h>
#include <poll.h>
#include <stdatomic.h>
#include <unistd.h>

enum { RETRY_MILLISECONDS = 10 };

/* From the request to the reply, without the lock: a slow file delays only its own chain. */
static uint32_t serve_request(struct worker *worker) {
    struct live *live = worker->live;
    struct pk_device device = live_device(atomic_load(live->options));
    uint64_t options = device.options;
    struct pk_call call;
    size_t have = load_front(&worker->chain, &worker->pop, worker->request);
    uint32_t status = ask(&worker->chain, &device, worker->request, have, &call);
    if (status != PK_DONE) return status;
    status = live->answer(live->files, &worker->chain, &device, &call, worker->request);
    if (device.options != options) atomic_store(live->options, device.options);
    if (status != PK_DONE && status != PK_NO_ROOM)
        status = pk_reply_err(&worker->chain, call.ticket, EIO);
    return status == PK_NO_ROOM ? PK_DONE : status;
}

/* Pushes the chain. Returns whether the driver is to be notified. */
static bool push(struct worker *worker) {
    struct live *live = worker->live;
    bool notify = false;
    uint32_t status = worker->status;
    worker->has_chain = false;
    if (worker->pop.fault) live->faulty++;
    if (status == PK_DONE) status = give_back(&worker->chain, &live->queue, live->marker, &notify);
    if (status == PK_DONE)
        live->served++;
    else
        give_up(&worker->chain, &live->queue, worker->pop.ticket, live->marker, &notify);
    worker->is_later = status == PK_OUT_OF_MEMORY;
    if (status != PK_DONE && !worker->is_later && !live->refused) live->refused = status;
    return notify;
}

/* Pops a chain, and reports what came of it. */
static uint32_t pop(struct worker *worker) {
    struct live *live = worker->live;
    struct pk_queue *queue = &live->queue;
    bool is_later = worker->is_later, notify = false;
    worker->is_later = false;
    if (live->stops || live->refused) return pk_turn_refused(&live->turns);
    if (is_later) return pk_turn_later(&live->turns);
    uint32_t status = pk_pop_ring(&worker->chain, queue, &live->ring, &worker->pop);
    uint16_t in_flight = (uint16_t)(queue->next_avail - queue->next_used);
    if (in_flight > live->most) live->most = in_flight;
    worker->has_chain = status == PK_DONE;
    if (worker->has_chain)
        return pk_turn_popped(&live->turns, queue->next_avail, in_flight >= queue->max_in_flight,
                              0);
    if (status == PK_IDLE) return pk_turn_idle(&live->turns, 0, queue->next_avail);
    if (status == PK_CHAIN_IN_FLIGHT) return pk_turn_full(&live->turns);
    give_up(&worker->chain, queue, worker->pop.ticket, live->marker, &notify);
    if (status == PK_OUT_OF_MEMORY) return pk_turn_later(&live->turns);
    live->refused = status;
    return pk_turn_refused(&live->turns);
}

/* Has the lock, until an action releases it. */
static uint32_t take_turn(struct worker *worker, bool slept) {
    struct live *live = worker->live;
    struct pk_turns *turns = &live->turns;
    struct pk_queue *queue = &live->queue;
    pthread_mutex_lock(&live->lock);
    bool notify = worker->has_chain && push(worker);
    uint32_t orders = slept ? pk_turn_woken(turns, 0) : pk_turn_back(turns, notify, 0);
    for (;;) {
        switch (orders & PK_DO) {
        case PK_DO_POP: orders = pop(worker); break;
        case PK_DO_ARM:
            orders = set_notification(&worker->chain, queue, true, live->marker)
                         ? pk_turn_armed(turns, queue->next_avail)
                         : pk_turn_not_armed(turns);
            break;
        case PK_DO_LOOK:
            orders = pk_look_ring(queue, &live->ring) ? pk_turn_more(turns)
                                                      : pk_turn_no_more(turns);
            break;
        case PK_DO_MUTE:
            set_notification(&worker->chain, queue, false, live->marker);
            orders = pk_turn_muted(turns);
            break;
        default: pthread_mutex_unlock(&live->lock); return orders;
        }
    }
}

/* Until this thread takes an event: one that another thread took doesn't wake it. */
static void sleep_until(int event) {
    struct pollfd waits = {event, POLLIN, 0};
    uint64_t count;
    do poll(&waits, 1, -1);
    while (read(event, &count, sizeof count) < 0 && (errno == EAGAIN || errno == EINTR));
}

void *live_work(void *at) {
    struct worker *worker = at;
    for (bool slept = false;;) {
        uint32_t orders = take_turn(worker, slept);
        if (orders & PK_INTERRUPT) live_signal(worker->live->call);
        if (orders & PK_WAKE_ONE) live_signal(worker->live->kick);
        slept = (orders & PK_DO) == PK_DO_SLEEP;
        switch (orders & PK_DO) {
        case PK_DO_ANSWER:
            worker->status = worker->pop.fault ? PK_DONE : serve_request(worker);
            break;
        case PK_DO_SLEEP: sleep_until(worker->live->kick); break;
        case PK_DO_STEP_ASIDE: poll(NULL, 0, RETRY_MILLISECONDS); break;
        default: return NULL;
        }
    }
}
