/* A match of two peers: circles and boxes fall into a bin, and are pushed, turned, stopped and
 * placed by commands that come up to 24 ticks late. Every 32 ticks, when all have come, it prints
 * the tick, how many contacts the world has, and a number over the world, which both peers show.
 *
 * It prints what worlds.out has, on each machine; web/test/worlds.test.mjs makes the same lines. */
#include <inttypes.h>
#include <stdio.h>
#include <stdlib.h>
#include <string.h>

#include "pf.h"

enum { TICKS = 1024, MEETING = 32, PLAYERS = 2, FIRST = 3, BODIES = 63, CONTACTS = 1000 };
enum { LATE = 24, ONE_IN = 4, RING = 16, FRAMES = 2 * TICKS, LINE = 120 };

/* A frame on its way, the player who issued it, and the tick in which it comes. */
typedef struct letter {
    pf_frame frame;
    uint32_t from, due;
} letter;

static pf_context context;
static pf_peer peers[PLAYERS];
static letter letters[FRAMES];
static size_t letter_count;

static void check(uint32_t code) {
    if (code != PF_OK) {
        fprintf(stderr, "worlds: %s\n", pf_code_name(code));
        exit(1);
    }
}

/* The next of a row of numbers, below a limit. */
static int64_t next(int64_t limit) {
    static uint64_t state = 1;
    state = state * UINT64_C(6364136223846793005) + UINT64_C(1442695040888963407);
    return (int64_t)((state >> 33) % (uint64_t)limit);
}

/* Writes the lines of a floor and two walls, and returns how many bytes they take. */
static int write_bin(char *end) {
    const long long one = PF_ONE;
    int length = sprintf(end, "gravity 0 %lld\n", -10 * one);
    length += sprintf(end + length, "box - 0 %lld %lld %lld 0 %lld %lld 0\n", one / 2, 20 * one,
                      one, -one, one);
    for (int side = -1; side <= 1; side += 2)
        length += sprintf(end + length, "box - 0 %lld %lld %lld %lld %lld %lld 0\n", one / 2, one,
                          20 * one, side * 21 * one, 19 * one, one);
    return length;
}

/* A bin, and bodies above it: two circles and two boxes in turn, of three sizes, and of player 0
 * and of player 1 in turn. */
static pf_scene read_scene(void) {
    static char text[LINE * (BODIES + 2)];
    const long long one = PF_ONE;
    int length = write_bin(text);
    pf_scene scene;
    uint64_t line;
    for (int i = 0; i < BODIES - FIRST; i++) {
        int is_box = i % 4 >= 2;
        long long size = (i % 3 + 2) * one / 4;
        long long x = (i % 10 * 4 - 18) * one, y = (i / 10 * 3 + 2) * one;
        length += sprintf(text + length, "%s %d %lld %lld %lld", is_box ? "box" : "circle",
                          (FIRST + i) % PLAYERS, one, one / 2, size);
        if (is_box)
            length += sprintf(text + length, " %lld", size);
        length += sprintf(text + length, " %lld %lld", x, y);
        if (is_box)
            length +=
                sprintf(text + length, " %lld %lld", (i % 7 - 3) * one / 4, (i % 5 - 2) * one / 4);
        length += sprintf(text + length, "\n");
    }
    length += sprintf(text + length, "end\n");
    check(pf_scene_read(&context, (const uint8_t *)text, (size_t)length, &scene, &line));
    return scene;
}

/* A player's command for one of its bodies. */
static pf_frame issue(uint32_t player) {
    pf_peer peer = peers[player];
    int64_t kind = next(4), first = next(17), second = next(9);
    uint16_t body =
        (uint16_t)(FIRST + (FIRST + player) % PLAYERS + PLAYERS * next((BODIES - FIRST) / PLAYERS));
    pf_frame frame;
    if (kind == 0)
        check(pf_peer_push(&context, peer, body, (pf_v2){(first - 8) * PF_ONE, second * PF_ONE},
                           &frame));
    else if (kind == 1)
        check(pf_peer_turn(&context, peer, body, (second - 4) * PF_ONE, &frame));
    else if (kind == 2)
        check(pf_peer_stop(&context, peer, body, &frame));
    else
        check(pf_peer_place(&context, peer, body,
                            (pf_v2){(first - 8) * 2 * PF_ONE, (second + 10) * PF_ONE}, &frame));
    return frame;
}

/* In this tick each player issues a command now and then. None is on its way when they meet. */
static void play(uint32_t tick) {
    uint32_t meeting = (tick / MEETING + 1) * MEETING;
    for (uint32_t player = 0; player < PLAYERS; player++) {
        if (next(ONE_IN) != 0)
            continue;
        pf_frame frame = issue(player);
        uint32_t due = tick + 1 + (uint32_t)next(LATE);
        letters[letter_count++] = (letter){frame, player, due < meeting ? due : meeting};
    }
}

/* Both peers go on by a tick, take what has come by then, and simulate. */
static void go_on(uint32_t tick) {
    uint32_t reached;
    pf_put put;
    for (uint32_t player = 0; player < PLAYERS; player++)
        check(pf_peer_advance(&context, peers[player], 1, &reached));
    for (size_t i = 0; i < letter_count; i++)
        if (letters[i].due == tick)
            check(pf_peer_take(&context, peers[1 - letters[i].from], letters[i].frame.bytes,
                               PF_FRAME_LEN, &put));
    for (uint32_t player = 0; player < PLAYERS; player++)
        check(pf_peer_settle(&context, peers[player], &reached));
}

static void add(uint32_t hash[2], const void *at, size_t length) {
    for (size_t i = 0; i < length; i += 4) {
        uint32_t word;
        memcpy(&word, (const char *)at + i, 4);
        hash[0] = (hash[0] ^ word) * 0x01000193;
        hash[1] = (hash[1] ^ word ^ hash[0] >> 15) * 0x01000193;
    }
}

/* Shows a peer's world at a tick, and seals the tick. */
static void show(char line[LINE], pf_peer peer, uint32_t tick) {
    static pf_body bodies[BODIES];
    static pf_contact contacts[CONTACTS];
    pf_sizes sizes;
    check(pf_peer_world(&context, peer, tick, bodies, BODIES, contacts, CONTACTS, &sizes));
    uint32_t hash[2] = {0x811c9dc5, 0x811c9dc5 ^ (uint32_t)sizes.bodies};
    add(hash, bodies, sizes.bodies * sizeof *bodies);
    add(hash, contacts, sizes.contacts * sizeof *contacts);
    snprintf(line, LINE, "%" PRIu32 " %" PRIu64 " %08" PRIx32 "%08" PRIx32 "\n", tick,
             sizes.contacts, hash[0], hash[1]);
    check(pf_peer_seal(&context, peer, tick));
}

int main(void) {
    char lines[PLAYERS][LINE];
    check(pf_open(&context));
    pf_scene scene = read_scene();
    for (uint32_t player = 0; player < PLAYERS; player++)
        check(pf_peer_new(&context, scene, (uint8_t)player, RING, &peers[player]));
    for (uint32_t tick = 0; tick < TICKS;) {
        play(tick);
        go_on(++tick);
        if (tick % MEETING != 0)
            continue;
        for (uint32_t player = 0; player < PLAYERS; player++)
            show(lines[player], peers[player], tick);
        fputs(lines[0], stdout);
        if (strcmp(lines[0], lines[1]) != 0)
            printf("the other peer: %s", lines[1]);
    }
    check(pf_close(&context));
    return 0;
}
