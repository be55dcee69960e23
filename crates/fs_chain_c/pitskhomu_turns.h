/* pitskhomu_turns.h: the loop of a queue's threads, decided by the library. Until version 1.2 of
 * the library this header may change with each minor version: build with the library's own.
 *
 * A queue has one lock, and one `struct pk_turns` beside it under that lock. Each thread of it has
 * a struct pk_chain of its own, takes the lock, and begins with pk_turn_back. A thread that holds
 * the lock calls the function of what happened, does what that returns, and calls the function of
 * what happened then. Threads that do so lose no chain and no answer, and forget no interrupt: they
 * keep the rules of NOTIFICATIONS in pitskhomu.h. examples/c/live.c is such a loop. There one
 * eventfd is the threads' event: the driver's notifications signal it, and a thread that got
 * PK_WAKE_ONE does.
 *
 * PROVED: each function has the effect of its event in the machine of crates/fs_turns, of which
 * law_no_turn_is_lost says that no turn is lost, by any number of threads, in any order, if
 *  1. a thread holds the lock from the call of an event until the library returns an action that
 *     releases it, and from a push or drop to pk_turn_back;
 *  2. an event says what happened: see each function. A pop goes by the available index that any
 *     thread of the queue loaded last: pk_pop_ring does, with one `struct pk_ring` under the lock;
 *  3. each thread performs its actions, and nobody else pops, pushes, or stores what
 *     pk_set_notification returns. An event for the threads (an eventfd) isn't lost between two
 *     waits, and a thread that takes it calls pk_turn_woken next;
 *  4. a thread whose answer comes after its chain began to wait first adds the chain to those that
 *     wait for a thread, and then signals the threads' event;
 *  5. who resets the queue calls pk_turns_reset, or pk_turns_begin if no thread serves it; if it
 *     is the former, the threads' event was signalled after pk_turns_begin, too;
 *  6. the driver keeps VIRTIO 1.2, 2.7.13 and 2.7.14. */
#ifndef PITSKHOMU_TURNS_H
#define PITSKHOMU_TURNS_H
#include "pitskhomu.h"
#ifdef __cplusplus
extern "C" {
#endif

/* The turns of a queue's threads: plain numbers. Call pk_turns_begin before the first use. */
struct pk_turns {
    uint64_t sleeping;     /* threads that sleep, or woke and don't have the lock yet */
    uint16_t enabled_at;   /* the position for which notifications are enabled, with EVENT_IDX */
    uint8_t notifications; /* in memory: 0 unknown, 1 disabled, 2 enabled */
    uint8_t phase;         /* what the lock's holder is to do; 0: no thread holds it */
    uint8_t event_index;   /* VIRTIO_F_EVENT_IDX was negotiated */
    uint8_t called;        /* a thread was woken by PK_WAKE_ONE, and doesn't have the lock yet */
    uint8_t owed;          /* the lock's holder must interrupt the driver */
    uint8_t reserved;
};

/* What a function returns: an action, in the bits PK_DO. For RESUME to MUTE the thread keeps the
 * lock. The other actions may have PK_WAKE_ONE and PK_INTERRUPT besides. */
enum pk_action {
    PK_DO_WRONG = 0,      /* the event can't happen now: a mistake of the loop. Nothing changed */
    PK_DO_RESUME = 1,     /* take up an answered chain: _resumed, _none_resumed, _refused */
    PK_DO_POP = 2,        /* pop a chain: _popped, _idle, _full, _paused, _later, _refused */
    PK_DO_ARM = 3,        /* pk_set_notification(1), its store, a barrier: _armed, _not_armed */
    PK_DO_LOOK = 4,       /* compare the available index with next_avail: _more, _no_more */
    PK_DO_MUTE = 5,       /* pk_set_notification(0), the store: _muted */
    PK_DO_ANSWER = 6,     /* release the lock, answer the chain, lock, push it: _back */
    PK_DO_SLEEP = 7,      /* release the lock, sleep until an event, lock: _woken */
    PK_DO_STEP_ASIDE = 8, /* release the lock, wait for a moment, lock: _back */
    PK_DO_STOP = 9,       /* release the lock: the thread ends */
    PK_DO = 255,
    PK_WAKE_ONE = 256,  /* once the lock is released, signal the threads' event */
    PK_INTERRUPT = 512, /* interrupt the driver, before the thread answers or sleeps */
};

/* A queue that no thread serves yet. `event_index`, here and in pk_turns_reset: as in its struct
 * pk_queue. It isn't checked: with another one the threads may sleep while chains are available. */
void pk_turns_begin(struct pk_turns *turns, uint32_t event_index) PK_NONNULL(1);
/* The queue was reset, by a thread that holds the lock, while others may sleep. A thread that
 * resets it in its own PK_DO_POP reports what it popped then; else signal the threads' event.
 * Returns 1, or 0 if a thread has another action to perform: then nothing changed. */
uint32_t pk_turns_reset(struct pk_turns *turns, uint32_t event_index) PK_CHECK(1);

/* The thread slept, and has the lock: an event woke it, or nothing did. `answers_wait`, here and in
 * pk_turn_back: not 0 if a chain may wait whose answer came later. */
uint32_t pk_turn_woken(struct pk_turns *turns, uint32_t answers_wait) PK_CHECK(1);
/* The thread didn't sleep, and has the lock: it has begun, or stepped aside, or has pushed, dropped
 * or abandoned its chain, or left it to wait for its answer. `notify`: as pk_pushed returned it,
 * else 0. Don't notify the driver for it yourself: PK_INTERRUPT says when. */
uint32_t pk_turn_back(struct pk_turns *turns, uint32_t notify, uint32_t answers_wait) PK_CHECK(1);
/* The thread took up a chain whose answer came later. `another`: another such chain may wait. The
 * last three are as in pk_turn_popped. */
uint32_t pk_turn_resumed(struct pk_turns *turns, uint32_t another, uint16_t next_avail,
                         uint32_t is_full, uint32_t another_comes) PK_CHECK(1);
/* No such chain waits. */
uint32_t pk_turn_none_resumed(struct pk_turns *turns) PK_CHECK(1);

/* The thread popped a chain (PK_DONE), also one with a fault. `next_avail`: the queue's.
 * `is_full`: `max_in_flight` are in flight. `another_comes`: another thread waits for the lock, and
 * will call pk_turn_back; 0 if you don't know. */
uint32_t pk_turn_popped(struct pk_turns *turns, uint16_t next_avail, uint32_t is_full,
                        uint32_t another_comes) PK_CHECK(1);
/* No chain is available (PK_IDLE): the pop loaded the index. `polls`: the thread looks again soon,
 * without sleeping. */
uint32_t pk_turn_idle(struct pk_turns *turns, uint32_t polls, uint16_t next_avail) PK_CHECK(1);
/* `max_in_flight` are in flight (PK_CHAIN_IN_FLIGHT). */
uint32_t pk_turn_full(struct pk_turns *turns) PK_CHECK(1);
/* No chain is popped for now, as while the VM is stopped: signal the threads' event when one may be
 * again. */
uint32_t pk_turn_paused(struct pk_turns *turns) PK_CHECK(1);
/* An allocation failed (PK_OUT_OF_MEMORY: call pk_drop first), or the IOMMU hasn't answered
 * (PK_MISS). */
uint32_t pk_turn_later(struct pk_turns *turns) PK_CHECK(1);
/* The queue is refused (1 to 8), or the thread is to end: PK_DO_STOP, with PK_WAKE_ONE if another
 * thread sleeps. So all threads end, if each calls this in place of its next pop; or in place of
 * taking up a chain, which the thread that is woken does. */
uint32_t pk_turn_refused(struct pk_turns *turns) PK_CHECK(1);

/* Notifications are enabled for `next_avail`: the store was made, and then a full barrier. */
uint32_t pk_turn_armed(struct pk_turns *turns, uint16_t next_avail) PK_CHECK(1);
/* They can't be, and no store was made. */
uint32_t pk_turn_not_armed(struct pk_turns *turns) PK_CHECK(1);
/* The available index, or the one that was loaded last, isn't `next_avail`; or it is, as it was
 * loaded for this. */
uint32_t pk_turn_more(struct pk_turns *turns) PK_CHECK(1);
uint32_t pk_turn_no_more(struct pk_turns *turns) PK_CHECK(1);
/* Notifications are disabled, or couldn't be. */
uint32_t pk_turn_muted(struct pk_turns *turns) PK_CHECK(1);

#ifdef __cplusplus
}
#endif
#if defined(__cplusplus)
#define PK_ASSERT(is, what) static_assert(is, what)
#elif defined(__STDC_VERSION__) && __STDC_VERSION__ >= 201112L
#define PK_ASSERT(is, what) _Static_assert(is, what)
#else
#define PK_ASSERT(is, what) struct pk_asserted
#endif
#define PK_AT(kind, field, at) PK_ASSERT(offsetof(struct kind, field) == at, #kind)
#define PK_SIZE(kind, size) PK_ASSERT(sizeof(struct kind) == size, #kind)
PK_AT(pk_turns, sleeping, 0); PK_AT(pk_turns, enabled_at, 8); PK_AT(pk_turns, notifications, 10);
PK_AT(pk_turns, phase, 11); PK_AT(pk_turns, event_index, 12); PK_AT(pk_turns, called, 13);
PK_AT(pk_turns, owed, 14); PK_AT(pk_turns, reserved, 15); PK_SIZE(pk_turns, 16);
#undef PK_AT
#undef PK_SIZE
#undef PK_ASSERT
#endif
