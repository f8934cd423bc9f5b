/* From each allocation of a match on, memory is refused until the call returns: it returns
 * PF_OUT_OF_MEMORY. A second try succeeds, and the match ends with the same world. All memory is
 * given back. Calls that take no memory succeed where there is none.
 *
 * Linked with -Wl,--wrap=malloc,--wrap=realloc,--wrap=free. */
#include <inttypes.h>
#include <stdio.h>
#include <stdlib.h>
#include <string.h>

#include "pf.h"

#define BODIES 3
#define CONTACTS 8

void *__real_malloc(size_t size);
void *__real_realloc(void *old, size_t size);
void __real_free(void *old);

static long granted = -1; /* the allocations that are granted; below 0: all are */
static long live;         /* the blocks that are allocated */
static int refusals;      /* the calls of this match that ran out of memory */

static int is_refused(void) {
    if (granted > 0)
        granted--;
    else if (granted == 0)
        return 1;
    return 0;
}

void *__wrap_malloc(size_t size) {
    if (is_refused())
        return NULL;
    live++;
    return __real_malloc(size);
}

void *__wrap_realloc(void *old, size_t size) {
    if (is_refused())
        return NULL;
    if (old == NULL)
        live++;
    return __real_realloc(old, size);
}

void __wrap_free(void *old) {
    if (old != NULL)
        live--;
    __real_free(old);
}

static void fail(const char *call, uint32_t code) {
    printf("memory.c: %s: code %" PRIu32 "\n", call, code);
    exit(1);
}

/* Calls, and calls again with ample memory where there was none. */
#define TRY(call)                                                                                  \
    do {                                                                                           \
        uint32_t code = (call);                                                                    \
        if (code == PF_OUT_OF_MEMORY) {                                                            \
            refusals++;                                                                            \
            granted = -1;                                                                          \
            code = (call);                                                                         \
        }                                                                                          \
        if (code != PF_OK)                                                                         \
            fail(#call, code);                                                                     \
    } while (0)

static const char SCENE[] = "gravity 0 -167772160\n"
                            "box - 0 8388608 335544320 16777216 0 -16777216 16777216 0\n"
                            "box 0 16777216 8388608 16777216 16777216 0 16777216 16777216 0\n"
                            "circle 1 16777216 8388608 16777216 67108864 33554432\n"
                            "end\n";

typedef struct result {
    pf_body bodies[BODIES];
    pf_contact contacts[CONTACTS];
    pf_sizes sizes;
} result;

static void play(result *end) {
    pf_context context = {0};
    pf_scene scene, made;
    pf_peer ours, theirs, watcher;
    pf_frame frame;
    pf_v2 impulse = {6 * PF_ONE, PF_ONE};
    pf_material material = {PF_ONE, 0, 0};
    uint64_t number;
    uint32_t tick;
    memset(end, 0, sizeof *end);
    TRY(pf_open(&context));
    TRY(pf_scene_read(&context, (const uint8_t *)SCENE, strlen(SCENE), &scene, &number));
    TRY(pf_scene_new(&context, impulse, &made));
    TRY(pf_scene_add_circle(&context, made, material, PF_ONE, impulse, &number));
    TRY(pf_peer_new(&context, scene, 0, 4, &ours));
    TRY(pf_peer_new(&context, scene, 1, 4, &theirs));
    TRY(pf_peer_push(&context, ours, 1, impulse, &frame));
    TRY(pf_peer_advance(&context, ours, 30, &tick));
    TRY(pf_peer_settle(&context, ours, &tick));
    TRY(pf_peer_advance(&context, theirs, 30, &tick));
    TRY(pf_peer_settle(&context, theirs, &tick));
    TRY(pf_peer_take(&context, theirs, frame.bytes, PF_FRAME_LEN, &tick));
    TRY(pf_peer_stop(&context, theirs, 2, &frame));
    TRY(pf_peer_merge(&context, ours, theirs, &number));
    TRY(pf_peer_settle(&context, theirs, &tick));
    TRY(pf_peer_seal(&context, theirs, 10));
    TRY(pf_peer_new(&context, scene, 2, 4, &watcher));
    TRY(pf_peer_merge_alone(&context, watcher, theirs, &number));
    TRY(pf_peer_world(&context, theirs, 12, end->bodies, BODIES, end->contacts, CONTACTS,
                      &end->sizes));
    TRY(pf_close(&context));
}

/* Calls with no memory at all. */
#define SPARE(call)                                                                                \
    do {                                                                                           \
        granted = 0;                                                                               \
        uint32_t code = (call);                                                                    \
        granted = -1;                                                                              \
        if (code != PF_OK)                                                                         \
            fail(#call, code);                                                                     \
    } while (0)

/* What needs no memory succeeds where there is none. */
static void spare(void) {
    pf_context context = {0};
    pf_scene scene;
    pf_peer ours, theirs;
    pf_frame frame, frames[2];
    pf_counts counts;
    result end;
    uint64_t number;
    uint32_t tick;
    TRY(pf_open(&context));
    TRY(pf_scene_read(&context, (const uint8_t *)SCENE, strlen(SCENE), &scene, &number));
    TRY(pf_peer_new(&context, scene, 0, 4, &ours));
    TRY(pf_peer_new(&context, scene, 1, 4, &theirs));
    TRY(pf_peer_stop(&context, ours, 1, &frame));
    TRY(pf_peer_merge(&context, theirs, ours, &number));
    SPARE(pf_peer_advance(&context, ours, 10, &tick));
    TRY(pf_peer_settle(&context, ours, &tick));
    SPARE(pf_peer_settle(&context, ours, &tick));
    SPARE(pf_peer_take(&context, ours, frame.bytes, PF_FRAME_LEN, &tick));
    SPARE(pf_peer_merge(&context, theirs, ours, &number));
    SPARE(pf_peer_merge_alone(&context, theirs, ours, &number));
    SPARE(pf_peer_frames(&context, ours, 0, frames, 2, &number));
    SPARE(pf_peer_base(&context, ours, end.bodies, BODIES, end.contacts, CONTACTS, &end.sizes));
    SPARE(pf_peer_meter(&context, ours, &counts));
    SPARE(pf_peer_reached(&context, ours, &tick));
    SPARE(pf_peer_settled(&context, ours, &tick));
    SPARE(pf_peer_horizon(&context, ours, &tick));
    SPARE(pf_peer_seal(&context, ours, 0));
    SPARE(pf_scene_free(&context, scene));
    SPARE(pf_peer_free(&context, theirs));
    SPARE(pf_close(&context));
}

int main(void) {
    result expected, actual;
    live = 0; /* what the program itself has allocated before does not count */
    spare();
    if (live != 0) {
        printf("memory.c: %ld blocks left of what was freed and closed\n", live);
        return 1;
    }
    play(&expected);
    for (long first = 0;; first++) {
        granted = first;
        refusals = 0;
        play(&actual);
        if (memcmp(&actual, &expected, sizeof actual) != 0 || live != 0) {
            printf("memory.c: from allocation %ld on: another world, or %ld blocks left\n", first,
                   live);
            return 1;
        }
        if (granted >= 0) {
            printf("%ld allocations, refused from each on\n", first);
            return first == 0;
        }
        if (refusals != 1) {
            printf("memory.c: allocation %ld was refused, and no call returned that\n", first);
            return 1;
        }
    }
}
