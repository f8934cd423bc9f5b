/* One match in three ways, which end with one world: contexts in threads of their own; a context
 * that goes from thread to thread, opened in the first and closed in the last; and a context that
 * threads share under a lock. */
#include <inttypes.h>
#include <pthread.h>
#include <stdbool.h>
#include <stdio.h>
#include <string.h>

#include "pf.h"

enum { THREADS = 4, BODIES = 20, CONTACTS = 200, TICKS = 200 };

/* A match, how far it has come, and the world that it ends with. */
typedef struct match {
    pthread_mutex_t lock;
    pf_context context;
    pf_peer peer;
    uint32_t tick;
    uint32_t code;
    pf_sizes sizes;
    pf_body bodies[BODIES];
    pf_contact contacts[CONTACTS];
} match;

static uint32_t build(match *match) {
    const pf_material material = {PF_ONE, PF_ONE / 2, 0}, rock = {0, PF_ONE / 2, PF_NOBODY};
    const pf_v2 upright = {PF_ONE, 0}, half = {PF_ONE, PF_ONE}, floor = {40 * PF_ONE, PF_ONE};
    const pf_v2 down = {0, -10 * PF_ONE}, under = {0, -PF_ONE};
    pf_context *context = &match->context;
    pf_scene scene;
    uint64_t body;
    uint32_t code;
    if ((code = pf_open(context)) != PF_OK)
        return code;
    if ((code = pf_scene_new(context, down, &scene)) != PF_OK)
        return code;
    if ((code = pf_scene_add_box(context, scene, rock, floor, under, upright, &body)) != PF_OK)
        return code;
    for (int64_t i = 1; i < BODIES; i++) {
        pf_v2 at = {i % 3 * (PF_ONE / 8), (3 * i - 2) * PF_ONE};
        if ((code = pf_scene_add_box(context, scene, material, half, at, upright, &body)) != PF_OK)
            return code;
    }
    return pf_peer_new(context, scene, 0, 8, &match->peer);
}

/* One tick. The first opens the context, and the last reads the world and closes it. */
static uint32_t play_tick(match *match) {
    pf_context *context = &match->context;
    pf_frame frame;
    uint32_t code, i = match->tick;
    if (i == 0 && (code = build(match)) != PF_OK)
        return code;
    if (i % 50 == 0) {
        pf_v2 impulse = {PF_ONE, 2 * PF_ONE};
        uint16_t body = (uint16_t)(1 + i / 50);
        if ((code = pf_peer_push(context, match->peer, body, impulse, &frame)) != PF_OK)
            return code;
    }
    if ((code = pf_peer_advance(context, match->peer, 1, &match->tick)) != PF_OK)
        return code;
    if ((code = pf_peer_settle(context, match->peer, &match->tick)) != PF_OK || match->tick < TICKS)
        return code;
    code = pf_peer_world(context, match->peer, TICKS, match->bodies, BODIES, match->contacts,
                         CONTACTS, &match->sizes);
    return code == PF_OK ? pf_close(context) : code;
}

static bool is_on(const match *match) { return match->code == PF_OK && match->tick < TICKS; }

/* Plays to the end. */
static void *play_all(void *argument) {
    match *match = argument;
    while (is_on(match))
        match->code = play_tick(match);
    return NULL;
}

/* Plays a part of it. */
static void *play_part(void *argument) {
    match *match = argument;
    for (int i = 0; i < TICKS / THREADS && is_on(match); i++)
        match->code = play_tick(match);
    return NULL;
}

/* Plays to the end, beside others. */
static void *play_beside(void *argument) {
    match *match = argument;
    bool on = true;
    while (on) {
        pthread_mutex_lock(&match->lock);
        if (is_on(match))
            match->code = play_tick(match);
        on = is_on(match);
        pthread_mutex_unlock(&match->lock);
    }
    return NULL;
}

static bool is_same(const char *how, const match *match, const struct match *other) {
    bool same = match->code == PF_OK && match->tick == TICKS &&
                memcmp(&match->sizes, &other->sizes, sizeof match->sizes) == 0 &&
                memcmp(match->bodies, other->bodies, sizeof match->bodies) == 0 &&
                memcmp(match->contacts, other->contacts, sizeof match->contacts) == 0;
    if (!same)
        printf("threads.c: %s: code %" PRIu32 " at tick %" PRIu32 "\n", how, match->code,
               match->tick);
    return same;
}

int main(void) {
    static match own[THREADS], moved, shared;
    pthread_t threads[THREADS];
    bool same = true;
    for (int i = 0; i < THREADS; i++)
        if (pthread_create(&threads[i], NULL, play_all, &own[i]) != 0)
            return 1;
    for (int i = 0; i < THREADS; i++)
        pthread_join(threads[i], NULL);
    for (int i = 0; i < THREADS; i++) {
        if (pthread_create(&threads[i], NULL, play_part, &moved) != 0)
            return 1;
        pthread_join(threads[i], NULL);
    }
    pthread_mutex_init(&shared.lock, NULL);
    for (int i = 0; i < THREADS; i++)
        if (pthread_create(&threads[i], NULL, play_beside, &shared) != 0)
            return 1;
    for (int i = 0; i < THREADS; i++)
        pthread_join(threads[i], NULL);
    pthread_mutex_destroy(&shared.lock);
    for (int i = 0; i < THREADS; i++)
        same = is_same("a context of its own", &own[i], &own[0]) && same;
    same = is_same("a context that moves", &moved, &own[0]) && same;
    same = is_same("a context under a lock", &shared, &own[0]) && same;
    return same ? 0 : 1;
}
