/* A checked stream of requests, with many chains in flight: each slot of a ring makes files,
 * writes, reads, looks up, renames and removes them, one request after another, and checks each
 * reply. A request that is lost, made twice, or answered wrongly ends the program. */
#ifndef STREAM_H
#define STREAM_H
#include "front.h"
#include <pthread.h>

enum { SLOTS = 16 };

struct stream_ring {
    struct stream *stream;
    size_t ring;
    pthread_t thread;
    struct slot {
        unsigned step, round;
        uint64_t dir, node, handle, unique, log_node, log_handle, dir_handle, dir_at;
        uint64_t logged; /* bytes written to the slot's long file */
        unsigned names;  /* of the directory that is read piece by piece */
        uint32_t opcode, room;
        bool is_busy;
    } slots[SLOTS];
    uint16_t seen;
    uint64_t requests;
    double longest; /* the longest time without a reply, in ms, since the last look */
};

struct stream {
    struct front *front;
    /* A file is removed while it is open, and read and written after that: the back-end must find
     * inodes by file handles. */
    bool unlinks_open;
    size_t slots;    /* of each ring */
    unsigned serial; /* of the streams of a program */
    atomic_bool stops;
    atomic_ulong requests;
    struct stream_ring rings[RINGS];
};

/* Makes a folder for each slot, and begins. */
void stream_begin(struct stream *stream, struct front *front, size_t slots, bool unlinks_open);

/* Ends when each slot is at the end of a round, and checks the long files in the directory. */
void stream_end(struct stream *stream);

/* The longest time without a reply since the last call, in ms. */
double stream_gap(struct stream *stream);

#endif
