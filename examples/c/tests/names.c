/* pitskhomu_names.h: the name of each number of pitskhomu.h's enums, and of no other; the pairs of
 * a BATCH_FORGET; the length of an entry; which libraries a program runs with. */
#define pk_version told_version /* the library's version is what the test says */
#define PITSKHOMU_NAMES_H
#include <pitskhomu.h>
#undef PITSKHOMU_NAMES_H
/* As of a header that has had minor versions. */
#undef PK_VERSION
#define PK_VERSION 0x20005u
#include <pitskhomu_names.h>
#include <stdio.h>
#include <stdlib.h>
#include <string.h>

struct name {
    uint32_t number;
    const char *name;
};

/* enum pk_status */
static const struct name statuses[] = {
    {0, "PK_DONE"},
    {1, "PK_STOPPED"},
    {2, "PK_AVAIL_INDEX_UNREACHABLE"},
    {3, "PK_AVAIL_TOO_FAR"},
    {4, "PK_RING_ENTRY_UNREACHABLE"},
    {5, "PK_HEAD_OUT_OF_TABLE"},
    {6, "PK_USED_UNREACHABLE"},
    {7, "PK_AVAIL_FLAGS_UNREACHABLE"},
    {8, "PK_DESCRIPTOR_UNREACHABLE"},
    {9, "PK_OUT_OF_MEMORY"},
    {32, "PK_LOAD"},
    {33, "PK_IDLE"},
    {34, "PK_MORE"},
    {35, "PK_NO_ROOM"},
    {36, "PK_FULL"},
    {37, "PK_LIST_FAILS"},
    {38, "PK_ENTRIES"},
    {39, "PK_MISS"},
    {66, "PK_BAD_ARGUMENT"},
    {69, "PK_SHORT_BUFFER"},
    {71, "PK_LONG_REPLY"},
    {73, "PK_WRONG_ORDER"},
    {74, "PK_OTHER_QUEUE"},
    {75, "PK_OTHER_KIND"},
    {76, "PK_CHAIN_IN_FLIGHT"},
    {77, "PK_NOT_MAPPED"},
    {78, "PK_PUSHING"},
    {79, "PK_OTHER_CALL"},
    {80, "PK_OTHER_TABLE"},
    {81, "PK_RECORD_TRUNCATED"},
    {82, "PK_RECORD_BAD_MAGIC"},
    {83, "PK_RECORD_BAD_VERSION"},
    {84, "PK_RECORD_BAD_COUNT"},
    {85, "PK_RECORD_BAD_RESERVED"},
    {86, "PK_RECORD_BAD_QUEUE"},
    {87, "PK_RECORD_BAD_OPTIONS"},
    {89, "PK_RECORD_OUT_OF_MEMORY"},
    {90, "PK_RECORD_MISMATCH"},
    {96, "PK_BAD_DEVICE"},
    {97, "PK_BAD_QUEUE_SIZE"},
    {98, "PK_BAD_QUEUE_ALIGNMENT"},
    {99, "PK_BAD_QUEUE_END"},
    {100, "PK_BAD_MAX_IN_FLIGHT"},
    {101, "PK_BAD_EVENT_INDEX"},
    {102, "PK_BAD_QUEUE_STATE"},
    {103, "PK_QUEUE_NOT_BEGUN"},
    {104, "PK_EMPTY_REGION"},
    {105, "PK_BAD_REGION_HOST"},
    {106, "PK_BAD_REGION_GUEST"},
    {107, "PK_BAD_REGION_LEN"},
    {108, "PK_BAD_REGION_END"},
    {109, "PK_TOO_MANY_REGIONS"},
    {110, "PK_REGIONS_OVERLAP"},
};

/* enum pk_state */
static const struct name states[] = {
    {0, "PK_STATE_NONE"},    {1, "PK_STATE_FREE"},    {2, "PK_STATE_POPPING"},
    {3, "PK_STATE_POPPED"},  {4, "PK_STATE_DECODED"}, {5, "PK_STATE_LISTING"},
    {6, "PK_STATE_REPLIED"}, {7, "PK_STATE_PUSHING"},
};

/* enum pk_fault */
static const struct name faults[] = {
    {0, "PK_FAULT_NONE"},
    {1, "PK_FAULT_TOO_LONG"},
    {2, "PK_FAULT_NEXT_OUT_OF_TABLE"},
    {3, "PK_FAULT_ADDRESS_OVERFLOW"},
    {4, "PK_FAULT_INDIRECT_WITH_NEXT"},
    {5, "PK_FAULT_INDIRECT_NESTED"},
    {6, "PK_FAULT_INDIRECT_LENGTH"},
    {7, "PK_FAULT_TABLE_UNREACHABLE"},
    {8, "PK_FAULT_OVER_LIMIT"},
    {9, "PK_FAULT_REQUEST_UNREACHABLE"},
    {10, "PK_FAULT_ROOM_UNREACHABLE"},
};

/* enum pk_request_fault */
static const struct name request_faults[] = {
    {1, "PK_REQUEST_DECODE"},        {2, "PK_REQUEST_ENCODE"},
    {4, "PK_REQUEST_MISSING_PARAMETER"}, {5, "PK_REQUEST_MISSING_EXTENSION"},
    {6, "PK_REQUEST_HEADER_LENGTH"}, {7, "PK_REQUEST_NAME"},
    {9, "PK_REQUEST_XATTR_SIZE"},
};

/* enum pk_call_kind: the opcodes of linux/fuse.h */
static const struct name calls[] = {
    {0, "PK_CALL_NONE"},         {1, "PK_CALL_LOOKUP"},        {2, "PK_CALL_FORGET"},
    {3, "PK_CALL_GETATTR"},      {4, "PK_CALL_SETATTR"},       {5, "PK_CALL_READLINK"},
    {6, "PK_CALL_SYMLINK"},      {8, "PK_CALL_MKNOD"},         {9, "PK_CALL_MKDIR"},
    {10, "PK_CALL_UNLINK"},      {11, "PK_CALL_RMDIR"},        {12, "PK_CALL_RENAME"},
    {13, "PK_CALL_LINK"},        {14, "PK_CALL_OPEN"},         {15, "PK_CALL_READ"},
    {16, "PK_CALL_WRITE"},       {17, "PK_CALL_STATFS"},       {18, "PK_CALL_RELEASE"},
    {20, "PK_CALL_FSYNC"},       {21, "PK_CALL_SETXATTR"},     {22, "PK_CALL_GETXATTR"},
    {23, "PK_CALL_LISTXATTR"},   {24, "PK_CALL_REMOVEXATTR"},  {25, "PK_CALL_FLUSH"},
    {26, "PK_CALL_INIT"},        {27, "PK_CALL_OPENDIR"},      {28, "PK_CALL_READDIR"},
    {29, "PK_CALL_RELEASEDIR"},  {30, "PK_CALL_FSYNCDIR"},     {34, "PK_CALL_ACCESS"},
    {35, "PK_CALL_CREATE"},      {38, "PK_CALL_DESTROY"},      {42, "PK_CALL_BATCH_FORGET"},
    {43, "PK_CALL_FALLOCATE"},   {44, "PK_CALL_READDIRPLUS"},  {46, "PK_CALL_LSEEK"},
    {47, "PK_CALL_COPY_FILE_RANGE"}, {50, "PK_CALL_SYNCFS"},
};

static void expect(const char *what, uint64_t found, uint64_t wanted) {
    if (found == wanted) return;
    fprintf(stderr, "FAILED: %s: %llu, and not %llu\n", what, (unsigned long long)found,
            (unsigned long long)wanted);
    exit(1);
}

/* A number has its name, or none. */
static void check_name(uint32_t number, const char *(*name_of)(uint32_t), const struct name *names,
                       size_t count) {
    const char *found = name_of(number), *wanted = "";
    for (size_t k = 0; k < count; k++)
        if (names[k].number == number) wanted = names[k].name;
    if (strcmp(found, wanted) == 0) return;
    fprintf(stderr, "FAILED: %u is \"%s\", and not \"%s\"\n", number, found, wanted);
    exit(1);
}

static void check_names(const char *(*name_of)(uint32_t), const struct name *names, size_t count) {
    for (uint32_t number = 0; number < 1000; number++) check_name(number, name_of, names, count);
    for (unsigned bit = 10; bit < 32; bit++)
        for (uint32_t more = 0; more < 100; more++)
            check_name((UINT32_C(1) << bit) + more, name_of, names, count);
    check_name(UINT32_MAX, name_of, names, count);
}

#define COUNT(list) (sizeof(list) / sizeof *(list))

/* Pairs whose bytes are all different, anywhere in a request (struct fuse_forget_one). */
static void check_pairs(void) {
    uint8_t request[256];
    for (size_t k = 0; k < sizeof request; k++) request[k] = (uint8_t)(255 - k);
    for (uint32_t at = 0; at < 64; at++) {
        struct pk_call call = {.kind = PK_CALL_BATCH_FORGET, .value = {at, 12 * 16}, .count = 12};
        for (uint64_t pair = 0; pair < 12; pair++) {
            uint64_t node = 1, count = 1, wanted[2] = {0, 0};
            for (size_t k = 0; k < 16; k++)
                wanted[k / 8] |= (uint64_t)request[at + 16 * pair + k] << 8 * (k % 8);
            pk_pair(request, &call, pair, &node, &count);
            expect("a pair's node", node, wanted[0]);
            expect("its count", count, wanted[1]);
        }
    }
}

/* struct fuse_dirent has 24 bytes before the name, struct fuse_direntplus 152; the next entry
 * begins at a multiple of 8. */
static void check_lengths(void) {
    for (uint64_t len = 0; len < 600; len++)
        for (int plus = 0; plus < 2; plus++) {
            uint64_t wanted = (plus ? 152 : 24) + len;
            while (wanted % 8) wanted++;
            expect("an entry's length", pk_direntry_len((size_t)len, plus), wanted);
        }
    expect("a long one's", pk_direntry_len(SIZE_MAX / 2, 0), SIZE_MAX / 2 + UINT64_C(25));
    expect("with nodes", pk_direntry_len(SIZE_MAX / 2 + 1, 1), SIZE_MAX / 2 + UINT64_C(153));
}

static uint32_t version_told;

uint32_t told_version(void) { return version_told; }

/* A program runs with each later library of its major number, and with no other. */
static void check_versions(void) {
    for (uint32_t major = 0; major < 5; major++)
        for (uint32_t minor = 0; minor < 0x10000; minor++) {
            version_told = major << 16 | minor;
            int wanted = major == 2 && minor >= 5;
            expect("it is compatible", (uint64_t)pk_is_compatible(), (uint64_t)wanted);
        }
}

int main(void) {
    check_names(pk_status_name, statuses, COUNT(statuses));
    check_names(pk_state_name, states, COUNT(states));
    check_names(pk_fault_name, faults, COUNT(faults));
    check_names(pk_request_fault_name, request_faults, COUNT(request_faults));
    check_names(pk_call_name, calls, COUNT(calls));
    check_pairs();
    check_lengths();
    check_versions();
    printf("names: %zu\n", COUNT(statuses) + COUNT(states) + COUNT(faults) + COUNT(request_faults) +
                               COUNT(calls));
    return 0;
}
