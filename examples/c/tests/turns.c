/* The machine of pitskhomu_turns.h in every order of the loads, stores and signals of a few threads
 * and a driver: `turns` explores all worlds that result, and finds none in which a turn is lost.
 * The world is that of crates/fs_turns (specs/Worlds), written by hand: so it also shows that the
 * theorem isn't empty. Fourteen wrong machines, each with one order changed, each lose a turn. */
#include "pitskhomu_turns.h"
#include <stdbool.h>
#include <stdio.h>
#include <stdlib.h>
#include <string.h>

enum { START = 65534, MOST_WORLDS = 1 << 19, TABLE = 1 << 21 };
enum wrong {
    RIGHT, WAKES_NOBODY, ANY_POSITION, NEVER_HANDS_ON, LOOKS_NOT_AGAIN, STAYS_CALLED,
    SLEEPS_AT_ONCE, SLEEPS_AFTER_ITS_WISH, LEAVES_ANSWERS, FORGETS_ANSWERS, ENDS_ALONE,
    FORGETS_INTERRUPTS, KEEPS_ITS_WISH, ENDS_WITH_ANSWERS, POPS_WITH_ITS_WISH, WRONG_MACHINES
};
static const char *const names[] = {
    "the machine", "wakes nobody", "a wish for any position", "never hands on", "looks not again",
    "stays called", "sleeps at once", "sleeps after its wish", "leaves answers",
    "forgets answers", "ends alone", "forgets interrupts", "keeps its wish over a reset",
    "ends alone with answers", "keeps its wish over a reset in a pop"};

/* How much may happen. Each list of bounds has few worlds. */
struct bounds {
    uint8_t threads, max_in_flight, chains, answers, pauses, notifies, drops, ends, resets;
};
static const struct bounds all_bounds[] = {
    {2, 2, 3, 0, 0, 0, 0, 0, 0}, {3, 2, 2, 0, 0, 0, 0, 0, 0}, {3, 1, 2, 0, 0, 0, 0, 0, 0},
    {2, 2, 2, 1, 0, 0, 0, 0, 0}, {2, 2, 1, 2, 0, 0, 0, 0, 0}, {2, 2, 2, 0, 1, 0, 0, 0, 0},
    {2, 2, 2, 0, 0, 1, 0, 0, 0}, {2, 2, 2, 0, 0, 0, 1, 0, 0}, {2, 2, 2, 0, 0, 0, 0, 1, 0},
    {2, 2, 2, 0, 0, 0, 0, 0, 1}, {2, 2, 1, 1, 0, 0, 0, 1, 0}};

struct world {
    uint16_t index, event, published, position, known, wish;
    uint8_t unchecked, out, sleepers, woken, coming, busy, signalers, answered, interrupters;
    uint8_t given, came, pauses, notifies, drops, ends, resets; /* so much has happened */
    bool muted, pending, owes, hidden, stored, undelivered, paused;
    uint8_t zeros[5]; /* no byte is unknown */
    struct pk_turns turns;
};
_Static_assert(sizeof(struct world) == 56, "the world has other bytes");

static struct {
    struct world worlds[MOST_WORLDS];
    struct { uint32_t from; const char *move; } ways[MOST_WORLDS];
    uint32_t table[TABLE], count, at;
    struct bounds most;
    bool by_event;
    enum wrong wrong;
} *all;

/* Prints the moves to a world, and ends. */
static _Noreturn void die(const char *what, uint32_t at) {
    fprintf(stderr, "FAILED: %s, by %s: %s. The last move first:\n", names[all->wrong],
            all->by_event ? "event" : "flags", what);
    for (; at; at = all->ways[at].from) fprintf(stderr, "  %s\n", all->ways[at].move);
    exit(1);
}

static void adds(const struct world *world, const char *move) {
    uint64_t sum = 0, words[sizeof *world / 8];
    memcpy(words, world, sizeof words);
    for (size_t k = 0; k < sizeof words / 8; k++) sum = (sum ^ words[k]) * 0x9e3779b97f4a7c15u;
    size_t slot = (sum ^ sum >> 29) % TABLE;
    for (; all->table[slot]; slot = (slot + 1) % TABLE)
        if (!memcmp(&all->worlds[all->table[slot] - 1], world, sizeof *world)) return;
    if (all->count == MOST_WORLDS) die("too many worlds", all->at);
    all->worlds[all->count] = *world;
    all->ways[all->count].from = all->at;
    all->ways[all->count].move = move;
    all->table[slot] = ++all->count;
}

/* ------------------------------------------------------------- the machine, and wrong ones */

static bool is(enum wrong wrong) { return all->wrong == wrong; }

static uint32_t releases(struct pk_turns *turns, uint32_t orders) {
    turns->phase = 0;
    if (turns->owed) orders |= PK_INTERRUPT;
    turns->owed = 0;
    return orders;
}

/* A wrong machine changes one order. */
static uint32_t changed(struct pk_turns *turns, uint32_t orders) {
    if (is(LOOKS_NOT_AGAIN) && orders == PK_DO_LOOK) return releases(turns, PK_DO_ANSWER);
    if (is(WAKES_NOBODY) && (orders & PK_DO) == PK_DO_ANSWER)
        return orders & ~(uint32_t)PK_WAKE_ONE;
    if (is(FORGETS_INTERRUPTS)) return orders & ~(uint32_t)PK_INTERRUPT;
    return orders;
}

/* A wrong machine takes any wish for one of the next position. */
static void takes_any(struct world *world) {
    if (is(ANY_POSITION) && world->turns.notifications == 2)
        world->turns.enabled_at = world->position;
}

static bool is_full(const struct world *world) { return world->out >= all->most.max_in_flight; }

static uint32_t popped(struct world *world, bool comes) {
    takes_any(world);
    return pk_turn_popped(&world->turns, world->position, is_full(world),
                          comes || is(NEVER_HANDS_ON));
}

static uint32_t resumed(struct world *world, bool comes) {
    takes_any(world);
    return pk_turn_resumed(&world->turns, world->answered && !is(LEAVES_ANSWERS), world->position,
                           is_full(world), comes || is(NEVER_HANDS_ON));
}

static uint32_t idle(struct world *world, bool polls) {
    uint8_t was = world->turns.notifications;
    takes_any(world);
    uint32_t orders = pk_turn_idle(&world->turns, polls, world->position);
    if (!is(SLEEPS_AT_ONCE) || orders != PK_DO_ARM) return orders;
    world->turns.notifications = was, world->turns.sleeping++;
    return releases(&world->turns, PK_DO_SLEEP);
}

static uint32_t armed(struct world *world) {
    uint32_t orders = pk_turn_armed(&world->turns, world->position);
    if (!is(SLEEPS_AFTER_ITS_WISH) || orders != PK_DO_POP) return orders;
    world->turns.sleeping++;
    return releases(&world->turns, PK_DO_SLEEP);
}

static uint32_t refused(struct world *world) {
    bool is_alone = is(world->turns.phase == 1 ? ENDS_WITH_ANSWERS : ENDS_ALONE);
    uint32_t orders = pk_turn_refused(&world->turns);
    return is_alone ? orders & ~(uint32_t)PK_WAKE_ONE : orders;
}

static uint32_t woken(struct world *world, bool answers) {
    uint8_t called = world->turns.called;
    uint32_t orders = pk_turn_woken(&world->turns, answers && !is(FORGETS_ANSWERS));
    if (is(STAYS_CALLED)) world->turns.called = called;
    return orders;
}

static uint32_t back(struct world *world, bool notify, bool answers) {
    return pk_turn_back(&world->turns, notify, answers && !is(FORGETS_ANSWERS));
}

/* ------------------------------------------------------------- the threads */

/* The thread has reported an event: it does what it was told. */
static void follows(struct world next, uint32_t orders, const char *move) {
    if (orders == PK_DO_WRONG) die("an event is refused", all->at);
    orders = changed(&next.turns, orders);
    if (orders & PK_INTERRUPT) next.interrupters++;
    switch (orders & PK_DO) {
    case PK_DO_ANSWER:
    case PK_DO_STOP:
        next.busy++;
        if (orders & PK_WAKE_ONE) next.signalers++;
        break;
    case PK_DO_SLEEP: next.sleepers++; break;
    case PK_DO_STEP_ASIDE: next.coming++; break;
    }
    adds(&next, move);
}

static void ends(struct world now, const char *move) {
    if (now.ends < all->most.ends) now.ends++, follows(now, refused(&now), move);
}

static void pops(struct world now, bool comes) {
    struct world next = now;
    uint16_t indices[] = {now.index, now.known};
    for (int k = 0; k < 2 && !is_full(&now); k++)
        if (indices[k] != now.position) {
            next = now, next.known = indices[k], next.position++, next.out++;
            follows(next, popped(&next, comes), "pops");
        }
    next = now, next.known = now.index;
    for (int polls = 0; polls < 2; polls++)
        if (now.index == now.position || is_full(&now)) {
            struct world other = next;
            follows(other, idle(&other, polls), polls ? "polls" : "finds none");
        }
    next = now;
    if (is_full(&now)) follows(next, pk_turn_full(&next.turns), "finds it full");
    next = now;
    if (now.paused) follows(next, pk_turn_paused(&next.turns), "finds it paused");
    next = now;
    follows(next, pk_turn_later(&next.turns), "lacks memory");
    ends(now, "ends");
}

static void reports(struct world now, bool comes) {
    struct world next = now;
    switch (now.turns.phase) {
    case 1:
        if (now.answered) next.answered--, follows(next, resumed(&next, comes), "resumes");
        else follows(next, pk_turn_none_resumed(&next.turns), "resumes none");
        ends(now, "ends, though an answer may wait");
        break;
    case 2: pops(now, comes); break;
    case 3:
    case 4:
        if (now.stored && !now.hidden)
            next.stored = false, follows(next, armed(&next), "has armed");
        if (!now.stored) follows(next, pk_turn_not_armed(&next.turns), "can't arm");
        if (!now.stored) {
            next = now, next.stored = next.hidden = true, next.wish = now.position;
            adds(&next, "stores its wish");
        }
        break;
    case 5:
        follows(next, pk_turn_more(&next.turns), "finds more");
        next = now, next.known = now.index;
        if (now.index == now.position) follows(next, pk_turn_no_more(&next.turns), "finds no more");
        break;
    case 6: next.muted = true, follows(next, pk_turn_muted(&next.turns), "mutes"); break;
    }
}

static void enters(struct world now) {
    struct world next = now;
    if (now.woken) next.woken--, follows(next, woken(&next, now.answered), "enters, woken");
    if (!now.coming) return;
    for (uint8_t pushed = 0; pushed <= now.out; pushed++)
        for (uint8_t notify = 0; notify <= (now.notifies < all->most.notifies); notify++) {
            next = now, next.coming--, next.out -= pushed, next.notifies |= notify;
            next.undelivered |= notify;
            follows(next, back(&next, notify, now.answered), pushed ? "pushes" : "enters");
        }
    if (now.out && now.drops < all->most.drops) {
        next = now, next.coming--, next.out--, next.position--, next.drops++;
        follows(next, back(&next, false, now.answered), "drops");
    }
}

/* A thread with the lock has the queue begin again, without a chain: before its event, and then it
 * signals, or in its pop. In memory notifications are as they were at the start. */
static void resets(struct world now) {
    struct world next = now;
    bool in_pop = now.turns.phase == 2;
    if ((now.turns.phase && !in_pop) || now.resets == all->most.resets) return;
    next.resets++;
    next.index = next.published = next.position = next.known = START;
    next.event = START - 1, next.wish = 0;
    next.unchecked = next.out = next.answered = 0;
    next.muted = true, next.owes = next.hidden = next.stored = false;
    next.pending |= !in_pop;
    if (!pk_turns_reset(&next.turns, all->by_event)) die("a reset is refused", all->at);
    if (is(in_pop ? POPS_WITH_ITS_WISH : KEEPS_ITS_WISH))
        next.turns.notifications = now.turns.notifications;
    adds(&next, in_pop ? "begins again in its pop" : "begins again");
}

/* ------------------------------------------------------------- the driver, and signals */

/* vring_need_event of linux/virtio_ring.h, or the flag. */
static bool must_notify(const struct world *now) {
    uint16_t new = now->published, old = (uint16_t)(new - now->unchecked);
    return all->by_event ? (uint16_t)(new - now->event - 1) < (uint16_t)(new - old) : !now->muted;
}

static void drives(struct world now) {
    struct world next = now;
    uint16_t available = (uint16_t)(now.published - now.position);
    if (now.given < all->most.chains && available + now.out < 2)
        next.published++, next.unchecked++, next.given++, adds(&next, "gives a chain");
    next = now;
    if (now.index != now.published) next.index++, adds(&next, "its index arrives");
    next = now;
    if (now.index == now.published)
        next.owes |= must_notify(&now), next.unchecked = 0, adds(&next, "checks");
    next = now;
    if (now.owes) next.owes = false, next.pending = true, adds(&next, "notifies");
}

static void happens(struct world now) {
    struct world next = now;
    if (now.hidden)
        next.event = now.wish, next.muted = next.hidden = false, adds(&next, "the wish arrives");
    for (int takes = 0; takes < 2; takes++)
        if (now.sleepers) {
            next = now, next.sleepers--, next.woken++, next.pending &= !takes;
            adds(&next, takes ? "wakes by the event" : "wakes by itself");
        }
    next = now;
    if (now.busy) next.busy--, next.coming++, adds(&next, "has answered");
    next = now;
    if (now.signalers) next.signalers--, next.pending = true, adds(&next, "signals");
    next = now;
    if (now.interrupters) next.interrupters--, next.undelivered = false, adds(&next, "interrupts");
    next = now;
    if (now.came < all->most.answers && now.out)
        next.came++, next.answered++, next.signalers++, adds(&next, "an answer comes");
    next = now;
    if (now.pauses < all->most.pauses) next.pauses++, next.paused = true, adds(&next, "is paused");
    next = now;
    if (now.paused) next.paused = false, next.pending = true, adds(&next, "goes on");
}

/* ------------------------------------------------------------- what is looked at */

/* A thread sleeps, and nobody is going to look: but a chain is available, or an answered one waits;
 * or an interrupt is forgotten. */
static bool is_lost(const struct world *now) {
    if (now->turns.phase) return false;
    bool has_chain = now->index != now->position && !is_full(now) && !now->owes &&
                     !now->unchecked && !now->paused;
    bool nobody = !now->woken && !now->coming && !now->signalers && !now->pending;
    return (now->sleepers && nobody && (has_chain || now->answered)) ||
           (now->undelivered && !now->interrupters);
}

/* Each event, and the phases in which it can happen. */
static uint32_t tries(struct pk_turns *turns, unsigned event) {
    switch (event) {
    case 0: return pk_turn_woken(turns, 0);
    case 1: return pk_turn_back(turns, 0, 0);
    case 2: return pk_turn_resumed(turns, 0, 0, 0, 0);
    case 3: return pk_turn_none_resumed(turns);
    case 4: return pk_turn_popped(turns, 0, 0, 0);
    case 5: return pk_turn_idle(turns, 0, 0);
    case 6: return pk_turn_full(turns);
    case 7: return pk_turn_paused(turns);
    case 8: return pk_turn_later(turns);
    case 9: return pk_turn_refused(turns);
    case 10: return pk_turn_armed(turns, 0);
    case 11: return pk_turn_not_armed(turns);
    case 12: return pk_turn_more(turns);
    case 13: return pk_turn_no_more(turns);
    case 14: return pk_turn_muted(turns);
    default: return pk_turns_reset(turns, 0);
    }
}
static const uint8_t first_phase[] = {0, 0, 1, 1, 2, 2, 2, 2, 2, 2, 3, 3, 5, 5, 6, 0},
                     second_phase[] = {0, 0, 0, 0, 0, 0, 0, 0, 0, 1, 4, 4, 0, 0, 0, 2};

/* An event that can't happen now is refused, and changes nothing. So it is by any phase. */
static void refuses_others(const struct pk_turns *now, uint8_t phase) {
    for (unsigned event = 0; event < 16; event++) {
        struct pk_turns turns = *now, was;
        turns.phase = phase, was = turns;
        bool is_second = phase == second_phase[event];
        bool fits = (phase == first_phase[event] || (is_second && phase)) &&
                    !(event == 0 && now->sleeping == 0);
        if (fits != (tries(&turns, event) != PK_DO_WRONG)) die("a wrong event", all->at);
        if (!fits && memcmp(&turns, &was, sizeof turns)) die("a wrong event's change", all->at);
    }
}

/* Explores a queue with no chain, to which all threads come. Returns whether a turn
 * is lost. */
static bool explores(const struct bounds *most) {
    struct world world = {.index = START, .published = START, .position = START, .known = START,
                          .event = START - 1, .muted = true, .coming = most->threads};
    bool is_lost_now = false, sleep = false;
    memset(all->table, 0, sizeof all->table);
    all->most = *most;
    all->count = all->at = 0;
    pk_turns_begin(&world.turns, all->by_event);
    for (adds(&world, "begins"), all->at = 0; !is_lost_now && all->at < all->count; all->at++) {
        world = all->worlds[all->at];
        is_lost_now = is_lost(&world);
        if (is_lost_now && is(RIGHT)) die("a turn is lost", all->at);
        sleep |= world.sleepers == most->threads;
        if (is(RIGHT)) refuses_others(&world.turns, (uint8_t)(all->at % 9));
        drives(world);
        happens(world);
        resets(world);
        if (world.turns.phase == 0) enters(world);
        for (int comes = 0; comes <= (world.coming > 0); comes++) reports(world, comes);
    }
    if (is(RIGHT) && !sleep) die("never do all threads sleep", 0);
    return is_lost_now;
}

int main(void) {
    enum { BOUNDS = sizeof all_bounds / sizeof *all_bounds };
    unsigned long worlds = 0;
    all = calloc(1, sizeof *all);
    if (!all) return 1;
    for (all->wrong = RIGHT; all->wrong < WRONG_MACHINES; all->wrong++) {
        bool is_found = is(RIGHT);
        for (size_t k = 0; k < 2 * BOUNDS && (is(RIGHT) || !is_found); k++) {
            all->by_event = k % 2 == 0;
            is_found = explores(&all_bounds[k / 2]) || is_found;
            if (is(RIGHT)) worlds += all->count;
        }
        if (!is_found) die("no turn is lost", 0);
    }
    printf("turns: none lost in %lu worlds; each of %d wrong machines loses one\n", worlds,
           WRONG_MACHINES - 1);
    free(all);
    return 0;
}
