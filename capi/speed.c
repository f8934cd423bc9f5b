/* What calls through C cost, each the least of several series: nanoseconds of pf_peer_reached, and
 * microseconds of the world of 1,000 bodies; and with a number of ticks as its word, microseconds a
 * tick of pf_peer_settle, of the scene on standard input.
 *
 *     speed [TICKS < SCENE]
 */
#include <inttypes.h>
#include <stdio.h>
#include <stdlib.h>
#include <time.h>

#include "pf.h"

enum { BODIES = 1000, CONTACTS = 10000, SERIES = 20, CALLS = 100000, WORLDS = 200, SETTLES = 5 };

static void check(uint32_t code) {
    if (code != PF_OK) {
        fprintf(stderr, "speed: code %" PRIu32 "\n", code);
        exit(1);
    }
}

static double now(void) {
    struct timespec time;
    clock_gettime(CLOCK_MONOTONIC, &time);
    return (double)time.tv_sec + 1e-9 * (double)time.tv_nsec;
}

/* 1,000 circles in rows, of which some touch, settled for 10 ticks. */
static pf_peer settled_peer(pf_context *context) {
    const pf_material material = {PF_ONE, PF_ONE / 2, 0};
    pf_scene scene;
    pf_peer peer;
    uint64_t body;
    uint32_t tick;
    check(pf_scene_new(context, (pf_v2){0, -10 * PF_ONE}, &scene));
    for (int64_t i = 0; i < BODIES; i++) {
        pf_v2 position = {i % 40 * 2 * PF_ONE, i / 40 * 4 * PF_ONE};
        check(pf_scene_add_circle(context, scene, material, PF_ONE, position, &body));
    }
    check(pf_peer_new(context, scene, 0, 16, &peer));
    check(pf_peer_advance(context, peer, 10, &tick));
    check(pf_peer_settle(context, peer, &tick));
    return peer;
}

/* Settles so many ticks of the scene on standard input. */
static void time_settle(uint32_t ticks) {
    static uint8_t text[1 << 20];
    size_t length = fread(text, 1, sizeof text, stdin);
    double least = 1e9;
    pf_context context = {0};
    pf_scene scene;
    pf_peer peer;
    uint64_t line;
    uint32_t tick;
    check(pf_open(&context));
    check(pf_scene_read(&context, text, length, &scene, &line));
    for (int series = 0; series < SETTLES; series++) {
        check(pf_peer_new(&context, scene, 0, 16, &peer));
        check(pf_peer_advance(&context, peer, ticks, &tick));
        double begin = now();
        check(pf_peer_settle(&context, peer, &tick));
        double settle = now() - begin;
        least = settle < least ? settle : least;
        check(pf_peer_free(&context, peer));
    }
    printf("pf_peer_settle, %" PRIu32 " ticks: %.2f us a tick\n", ticks, 1e6 * least / ticks);
    check(pf_close(&context));
}

/* Times pf_peer_reached and pf_peer_world. */
static void time_calls(void) {
    static pf_body bodies[BODIES];
    static pf_contact contacts[CONTACTS];
    double least_call = 1, least_world = 1;
    pf_context context = {0};
    pf_sizes sizes;
    pf_peer peer;
    uint32_t tick;
    check(pf_open(&context));
    peer = settled_peer(&context);
    for (int series = 0; series < SERIES; series++) {
        double begin = now();
        for (int i = 0; i < CALLS; i++)
            check(pf_peer_reached(&context, peer, &tick));
        double call = (now() - begin) / CALLS;
        begin = now();
        for (int i = 0; i < WORLDS; i++)
            check(pf_peer_world(&context, peer, 10, bodies, BODIES, contacts, CONTACTS, &sizes));
        double world = (now() - begin) / WORLDS;
        least_call = call < least_call ? call : least_call;
        least_world = world < least_world ? world : least_world;
    }
    printf("pf_peer_reached: %.0f ns\n", 1e9 * least_call);
    printf("pf_peer_world, %" PRIu64 " bodies and %" PRIu64 " contacts: %.1f us\n", sizes.bodies,
           sizes.contacts, 1e6 * least_world);
    check(pf_close(&context));
}

int main(int count, char **words) {
    if (count == 2)
        time_settle((uint32_t)strtoul(words[1], NULL, 10));
    else
        time_calls();
    return 0;
}
