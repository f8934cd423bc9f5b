/* Each call with what C can do wrong: closed contexts, keys that were freed, made up or of another
 * context, numbers out of range, frames and buffers of every length. Prints the lines that fail. */
#include <inttypes.h>
#include <stddef.h>
#include <stdio.h>
#include <stdlib.h>
#include <string.h>

#include "pf.h"

_Static_assert(sizeof(pf_context) == 16, "pf_context");
_Static_assert(sizeof(pf_key) == 8, "pf_key");
_Static_assert(sizeof(pf_material) == 24, "pf_material");
_Static_assert(sizeof(pf_frame) == PF_FRAME_LEN, "pf_frame");
_Static_assert(sizeof(pf_body) == 64, "pf_body");
_Static_assert(sizeof(pf_contact) == 24, "pf_contact");
_Static_assert(offsetof(pf_contact, feature) == 4, "pf_contact.feature");
_Static_assert(offsetof(pf_contact, tangent) == 16, "pf_contact.tangent");
_Static_assert(sizeof(pf_sizes) == 16, "pf_sizes");
_Static_assert(sizeof(pf_counts) == 16, "pf_counts");

static int failures;

#define EXPECT(actual, expected) expect(__LINE__, (uint64_t)(actual), (uint64_t)(expected))

static void expect(int line, uint64_t actual, uint64_t expected) {
    if (actual != expected) {
        printf("calls.c:%d: %" PRIu64 ", not %" PRIu64 "\n", line, actual, expected);
        failures++;
    }
}

static const pf_v2 ORIGIN = {0, 0};
static const pf_v2 UPRIGHT = {PF_ONE, 0};
static const pf_v2 DOWN = {0, -10 * PF_ONE};
static const pf_material STATIC = {0, PF_ONE / 2, PF_NOBODY};
static const pf_material OF_PLAYER_0 = {PF_ONE, PF_ONE / 2, 0};
static const pf_material OF_NOBODY = {PF_ONE, PF_ONE / 2, PF_NOBODY};

/* A floor, a box and a circle that stand on it. */
static pf_scene floor_scene(pf_context *context) {
    pf_scene scene;
    uint64_t body;
    pf_v2 floor = {20 * PF_ONE, PF_ONE}, under = {0, -PF_ONE};
    pf_v2 half = {PF_ONE, PF_ONE}, left = {-4 * PF_ONE, PF_ONE}, right = {4 * PF_ONE, PF_ONE};
    EXPECT(pf_scene_new(context, DOWN, &scene), PF_OK);
    EXPECT(pf_scene_add_box(context, scene, STATIC, floor, under, UPRIGHT, &body), PF_OK);
    EXPECT(body, 0);
    EXPECT(pf_scene_add_box(context, scene, OF_PLAYER_0, half, left, UPRIGHT, &body), PF_OK);
    EXPECT(body, 1);
    EXPECT(pf_scene_add_circle(context, scene, OF_NOBODY, PF_ONE, right, &body), PF_OK);
    EXPECT(body, 2);
    return scene;
}

/* Each call on a scene or a peer returns this code. */
static void expect_all(pf_context *context, pf_scene scene, pf_peer peer, uint32_t code) {
    pf_peer new_peer;
    pf_frame frame = {{0}};
    pf_body body;
    pf_contact contact;
    pf_sizes sizes;
    pf_counts counts;
    uint64_t count;
    uint32_t number;
    pf_v2 half = {PF_ONE, PF_ONE};
    EXPECT(pf_scene_add_circle(context, scene, OF_NOBODY, PF_ONE, ORIGIN, &count), code);
    EXPECT(pf_scene_add_box(context, scene, OF_NOBODY, half, ORIGIN, UPRIGHT, &count), code);
    EXPECT(pf_peer_new(context, scene, 0, 1, &new_peer), code);
    EXPECT(pf_scene_free(context, scene), code);
    EXPECT(pf_peer_push(context, peer, 0, ORIGIN, &frame), code);
    EXPECT(pf_peer_turn(context, peer, 0, 0, &frame), code);
    EXPECT(pf_peer_stop(context, peer, 0, &frame), code);
    EXPECT(pf_peer_place(context, peer, 0, ORIGIN, &frame), code);
    EXPECT(pf_peer_take(context, peer, frame.bytes, PF_FRAME_LEN, &number), code);
    EXPECT(pf_peer_merge(context, peer, peer, &count), code);
    EXPECT(pf_peer_merge_alone(context, peer, peer, &count), code);
    EXPECT(pf_peer_frames(context, peer, 0, &frame, 1, &count), code);
    EXPECT(pf_peer_advance(context, peer, 1, &number), code);
    EXPECT(pf_peer_settle(context, peer, &number), code);
    EXPECT(pf_peer_seal(context, peer, 0), code);
    EXPECT(pf_peer_reached(context, peer, &number), code);
    EXPECT(pf_peer_settled(context, peer, &number), code);
    EXPECT(pf_peer_horizon(context, peer, &number), code);
    EXPECT(pf_peer_meter(context, peer, &counts), code);
    EXPECT(pf_peer_world(context, peer, 0, &body, 0, &contact, 0, &sizes), code);
    EXPECT(pf_peer_base(context, peer, &body, 0, &contact, 0, &sizes), code);
    EXPECT(pf_peer_free(context, peer), code);
}

static void closed_contexts(void) {
    pf_context context = {0};
    pf_scene scene = {{0, 0}};
    pf_peer peer = {{0, 0}};
    uint64_t line = 7;
    EXPECT(pf_close(&context), PF_CLOSED);
    expect_all(&context, scene, peer, PF_CLOSED);
    EXPECT(pf_scene_new(&context, DOWN, &scene), PF_CLOSED);
    EXPECT(pf_scene_read(&context, (const uint8_t *)"x", 1, &scene, &line), PF_CLOSED);
    EXPECT(line, 7);
    EXPECT(pf_open(&context), PF_OK);
    EXPECT(pf_open(&context), PF_STILL_OPEN);
    EXPECT(pf_close(&context), PF_OK);
    expect_all(&context, scene, peer, PF_CLOSED);
}

static void keys(void) {
    static const uint32_t NUMBERS[] = {0, 1, 2, 3, 1000, UINT32_MAX - 1, UINT32_MAX};
    const size_t count = sizeof NUMBERS / sizeof *NUMBERS;
    pf_context context = {0}, other = {0};
    pf_scene scene, later;
    pf_peer peer, fresh;
    uint32_t tick;
    EXPECT(pf_open(&context), PF_OK);
    EXPECT(pf_open(&other), PF_OK);
    for (size_t i = 0; i < count; i++)
        for (size_t j = 0; j < count; j++) {
            pf_key key = {NUMBERS[i], NUMBERS[j]};
            expect_all(&context, (pf_scene){key}, (pf_peer){key}, PF_BAD_KEY);
        }
    scene = floor_scene(&context);
    EXPECT(pf_peer_new(&context, scene, 0, 1, &peer), PF_OK);
    EXPECT(pf_peer_advance(&context, peer, 5, &tick), PF_OK);
    /* The other context has neither. */
    expect_all(&other, scene, peer, PF_BAD_KEY);
    /* A peer stays when its scene is freed, and a freed key stays one. */
    EXPECT(pf_scene_free(&context, scene), PF_OK);
    EXPECT(pf_peer_reached(&context, peer, &tick), PF_OK);
    EXPECT(tick, 5);
    EXPECT(pf_peer_free(&context, peer), PF_OK);
    for (int i = 0; i < 100; i++) {
        later = floor_scene(&context);
        EXPECT(pf_peer_new(&context, later, 0, 1, &fresh), PF_OK);
        expect_all(&context, scene, peer, PF_BAD_KEY);
        EXPECT(pf_peer_reached(&context, fresh, &tick), PF_OK);
        EXPECT(tick, 0);
        EXPECT(pf_scene_free(&context, later), PF_OK);
        EXPECT(pf_peer_free(&context, fresh), PF_OK);
    }
    EXPECT(pf_close(&other), PF_OK);
    EXPECT(pf_close(&context), PF_OK);
}

/* Texts of scenes that are invalid, with their lines. */
static void text_errors(void) {
    static const struct {
        const char *text;
        uint32_t code;
        uint64_t line;
    } TEXTS[] = {
        {"", PF_SCENE_BAD_LINE, 1},
        {"gravity 0 0\ncircle\nend\n", PF_SCENE_BAD_LINE, 2},
        {"gravity 0 17179869185\nend\n", PF_SCENE_BAD_NUMBER, 1},
        {"gravity 0 0\n\ncircle 8 0 0 16777216 0 0\nend\n", PF_SCENE_BAD_NUMBER, 3},
        {"gravity 0 0\ncircle 0 1 0 16777216 0 0\nend\n", PF_SCENE_BAD_MASS, 2},
        {"gravity 0 0\ncircle 0 0 0 1 0 0\nend\n", PF_SCENE_BAD_SIZE, 2},
    };
    pf_context context = {0};
    pf_scene scene = {{77, 78}};
    uint64_t line;
    EXPECT(pf_open(&context), PF_OK);
    for (size_t i = 0; i < sizeof TEXTS / sizeof *TEXTS; i++) {
        const uint8_t *text = (const uint8_t *)TEXTS[i].text;
        line = 0;
        EXPECT(pf_scene_read(&context, text, strlen(TEXTS[i].text), &scene, &line), TEXTS[i].code);
        EXPECT(line, TEXTS[i].line);
        EXPECT(scene.key.index, 77);
    }
    EXPECT(pf_close(&context), PF_OK);
}

/* Scenes and bodies whose numbers are out of range. */
static void scene_errors(void) {
    const pf_v2 far = {INT64_C(1) << 45, 0}, thin = {PF_ONE, 1}, half = {PF_ONE, PF_ONE};
    const pf_material light = {1, 0, 0}, foreign = {0, 0, 8}, rough = {0, 67108865, 0};
    pf_context context = {0};
    pf_scene scene = {{77, 78}};
    uint64_t body = 9;
    EXPECT(pf_open(&context), PF_OK);
    EXPECT(pf_scene_new(&context, (pf_v2){INT64_MIN, 0}, &scene), PF_SCENE_BAD_NUMBER);
    EXPECT(pf_scene_new(&context, (pf_v2){0, INT64_MAX}, &scene), PF_SCENE_BAD_NUMBER);
    EXPECT(scene.key.generation, 78);
    EXPECT(pf_scene_new(&context, ORIGIN, &scene), PF_OK);
    EXPECT(pf_scene_add_circle(&context, scene, light, PF_ONE, ORIGIN, &body), PF_SCENE_BAD_MASS);
    EXPECT(pf_scene_add_circle(&context, scene, foreign, PF_ONE, ORIGIN, &body),
           PF_SCENE_BAD_NUMBER);
    EXPECT(pf_scene_add_circle(&context, scene, rough, PF_ONE, ORIGIN, &body), PF_SCENE_BAD_NUMBER);
    EXPECT(pf_scene_add_circle(&context, scene, STATIC, INT64_MIN, ORIGIN, &body),
           PF_SCENE_BAD_SIZE);
    EXPECT(pf_scene_add_circle(&context, scene, STATIC, PF_ONE, far, &body), PF_SCENE_BAD_NUMBER);
    EXPECT(pf_scene_add_box(&context, scene, STATIC, thin, ORIGIN, UPRIGHT, &body),
           PF_SCENE_BAD_SIZE);
    EXPECT(pf_scene_add_box(&context, scene, STATIC, half, ORIGIN, far, &body),
           PF_SCENE_BAD_NUMBER);
    EXPECT(body, 9);
    for (uint64_t i = 0; i < 1024; i++) {
        EXPECT(pf_scene_add_circle(&context, scene, OF_NOBODY, PF_ONE, ORIGIN, &body), PF_OK);
        EXPECT(body, i);
    }
    EXPECT(pf_scene_add_circle(&context, scene, STATIC, PF_ONE, ORIGIN, &body), PF_SCENE_TOO_MANY);
    EXPECT(pf_close(&context), PF_OK);
}

static void peer_errors(void) {
    const int64_t great = (INT64_C(1) << 55);
    pf_context context = {0};
    pf_scene scene;
    pf_peer peer;
    pf_frame frame, command;
    uint32_t number = 3;
    EXPECT(pf_open(&context), PF_OK);
    scene = floor_scene(&context);
    EXPECT(pf_peer_new(&context, scene, 8, 1, &peer), PF_BAD_PLAYER);
    EXPECT(pf_peer_new(&context, scene, 0, 0, &peer), PF_BAD_RING);
    EXPECT(pf_peer_new(&context, scene, 0, 65, &peer), PF_BAD_RING);
    EXPECT(pf_peer_new(&context, scene, 0, 64, &peer), PF_OK);
    EXPECT(pf_peer_push(&context, peer, 1, (pf_v2){great, 0}, &frame), PF_BAD_NUMBER);
    EXPECT(pf_peer_turn(&context, peer, 1, -great, &frame), PF_BAD_NUMBER);
    EXPECT(pf_peer_place(&context, peer, 1, (pf_v2){0, great}, &frame), PF_BAD_NUMBER);
    EXPECT(pf_peer_stop(&context, peer, 3, &frame), PF_UNKNOWN_BODY);
    EXPECT(pf_peer_stop(&context, peer, 0, &frame), PF_STATIC_BODY);
    EXPECT(pf_peer_stop(&context, peer, 2, &frame), PF_NOT_OWNER);
    EXPECT(pf_peer_seal(&context, peer, 1), PF_NOT_REACHED);
    EXPECT(pf_peer_advance(&context, peer, 1048577, &number), PF_TICK_LIMIT);
    EXPECT(number, 3);
    EXPECT(pf_peer_stop(&context, peer, 1, &command), PF_OK);
    EXPECT(pf_peer_take(&context, peer, command.bytes, PF_FRAME_LEN, &number), PF_OK);
    EXPECT(number, PF_SAME);
    EXPECT(pf_peer_advance(&context, peer, 2, &number), PF_OK);
    EXPECT(pf_peer_settle(&context, peer, &number), PF_OK);
    EXPECT(pf_peer_seal(&context, peer, 2), PF_OK);
    EXPECT(pf_peer_take(&context, peer, command.bytes, PF_FRAME_LEN, &number), PF_TOO_OLD);
    EXPECT(pf_peer_seal(&context, peer, 1), PF_TOO_OLD);
    EXPECT(pf_close(&context), PF_OK);
}

/* A stop of body 1 that player 0 issued, with one byte changed. */
static void frame_errors(void) {
    enum { VERSION = 0, PLAYER = 5, KIND = 8, LAST = PF_FRAME_LEN - 1 };
    static const struct {
        size_t at;
        uint8_t byte;
        uint32_t code;
    } CHANGES[] = {
        {VERSION, 9, PF_FRAME_BAD_VERSION}, {KIND, 4, PF_FRAME_BAD_KIND},
        {LAST, 1, PF_FRAME_NOT_CANONICAL},  {PLAYER, 8, PF_FRAME_OUT_OF_RANGE},
        {PLAYER, 1, PF_NOT_OWNER},
    };
    pf_context context = {0};
    pf_peer peer;
    pf_frame command, frame;
    uint8_t longer[PF_FRAME_LEN + 1] = {0};
    uint32_t put = 7;
    EXPECT(pf_open(&context), PF_OK);
    EXPECT(pf_peer_new(&context, floor_scene(&context), 0, 1, &peer), PF_OK);
    EXPECT(pf_peer_stop(&context, peer, 1, &command), PF_OK);
    for (size_t length = 0; length < PF_FRAME_LEN; length++)
        EXPECT(pf_peer_take(&context, peer, command.bytes, length, &put), PF_FRAME_SHORT);
    memcpy(longer, command.bytes, PF_FRAME_LEN);
    EXPECT(pf_peer_take(&context, peer, longer, sizeof longer, &put), PF_FRAME_LONG);
    for (size_t i = 0; i < sizeof CHANGES / sizeof *CHANGES; i++) {
        frame = command;
        frame.bytes[CHANGES[i].at] = CHANGES[i].byte;
        EXPECT(pf_peer_take(&context, peer, frame.bytes, PF_FRAME_LEN, &put), CHANGES[i].code);
    }
    EXPECT(put, 7);
    EXPECT(pf_close(&context), PF_OK);
}

/* Two commands of one name: the greater payload stays, whoever comes last. */
static void names_that_meet(void) {
    pf_context context = {0};
    pf_scene scene;
    pf_peer first, second;
    pf_frame stop, push;
    uint32_t put;
    EXPECT(pf_open(&context), PF_OK);
    scene = floor_scene(&context);
    EXPECT(pf_peer_new(&context, scene, 0, 1, &first), PF_OK);
    EXPECT(pf_peer_new(&context, scene, 0, 1, &second), PF_OK);
    EXPECT(pf_peer_stop(&context, first, 1, &stop), PF_OK);
    EXPECT(pf_peer_push(&context, second, 1, UPRIGHT, &push), PF_OK);
    EXPECT(pf_peer_take(&context, second, stop.bytes, PF_FRAME_LEN, &put), PF_OK);
    EXPECT(put, PF_GREATER);
    EXPECT(pf_peer_take(&context, first, push.bytes, PF_FRAME_LEN, &put), PF_OK);
    EXPECT(put, PF_LESSER);
    EXPECT(pf_peer_take(&context, second, stop.bytes, PF_FRAME_LEN, &put), PF_OK);
    EXPECT(put, PF_SAME);
    EXPECT(pf_close(&context), PF_OK);
}

static void numbers_of_a_tick(void) {
    pf_context context = {0};
    pf_peer peer;
    pf_frame frame;
    EXPECT(pf_open(&context), PF_OK);
    EXPECT(pf_peer_new(&context, floor_scene(&context), 0, 1, &peer), PF_OK);
    for (uint32_t i = 0; i < 65536; i++)
        EXPECT(pf_peer_stop(&context, peer, 1, &frame), PF_OK);
    EXPECT(pf_peer_stop(&context, peer, 1, &frame), PF_NUMBERS_SPENT);
    EXPECT(pf_close(&context), PF_OK);
}

static void merging(void) {
    pf_context context = {0};
    pf_scene scene, empty;
    pf_peer ours, theirs, foreign;
    pf_frame frame;
    uint64_t count = 5;
    uint32_t tick;
    EXPECT(pf_open(&context), PF_OK);
    scene = floor_scene(&context);
    EXPECT(pf_scene_new(&context, ORIGIN, &empty), PF_OK);
    EXPECT(pf_peer_new(&context, scene, 0, 1, &ours), PF_OK);
    EXPECT(pf_peer_new(&context, scene, 1, 1, &theirs), PF_OK);
    EXPECT(pf_peer_new(&context, empty, 1, 1, &foreign), PF_OK);
    EXPECT(pf_peer_stop(&context, ours, 1, &frame), PF_OK);
    EXPECT(pf_peer_merge(&context, theirs, ours, &count), PF_OK);
    EXPECT(count, 1);
    EXPECT(pf_peer_merge(&context, theirs, ours, &count), PF_OK);
    EXPECT(count, 0);
    EXPECT(pf_peer_merge(&context, ours, ours, &count), PF_OK);
    EXPECT(count, 0);
    EXPECT(pf_peer_merge(&context, foreign, ours, &count), PF_BASES_DIFFER);
    EXPECT(pf_peer_advance(&context, ours, 1, &tick), PF_OK);
    EXPECT(pf_peer_seal(&context, ours, 1), PF_OK);
    EXPECT(pf_peer_horizon(&context, ours, &tick), PF_OK);
    EXPECT(tick, 1);
    count = 5;
    EXPECT(pf_peer_merge(&context, theirs, ours, &count), PF_HORIZONS_DIFFER);
    EXPECT(count, 5);
    EXPECT(pf_peer_stop(&context, ours, 1, &frame), PF_OK);
    EXPECT(pf_peer_merge_alone(&context, theirs, ours, &count), PF_OK);
    EXPECT(count, 1);
    EXPECT(pf_peer_merge_alone(&context, ours, theirs, &count), PF_TOO_OLD);
    EXPECT(pf_close(&context), PF_OK);
}

/* The frames of a peer, into arrays of each length, and from each tick on. */
static void frames_read_back(void) {
    enum { COMMANDS = 5 };
    pf_context context = {0};
    pf_peer peer, late;
    pf_scene scene;
    pf_frame issued[COMMANDS], untouched[COMMANDS];
    uint32_t tick, put;
    uint64_t count;
    EXPECT(pf_open(&context), PF_OK);
    scene = floor_scene(&context);
    EXPECT(pf_peer_new(&context, scene, 0, 1, &peer), PF_OK);
    EXPECT(pf_peer_new(&context, scene, 1, 1, &late), PF_OK);
    for (int64_t i = 0; i < COMMANDS; i++) {
        EXPECT(pf_peer_turn(&context, peer, 1, i, &issued[i]), PF_OK);
        EXPECT(pf_peer_advance(&context, peer, 1, &tick), PF_OK);
    }
    memset(untouched, 0x5a, sizeof untouched);
    for (uint32_t from = 0; from <= COMMANDS; from++)
        for (size_t length = 0; length <= COMMANDS; length++) {
            pf_frame frames[COMMANDS];
            size_t later = COMMANDS - from, written = length < later ? 0 : later;
            memset(frames, 0x5a, sizeof frames);
            EXPECT(pf_peer_frames(&context, peer, from, frames, length, &count),
                   length < later ? PF_SMALL_BUFFER : PF_OK);
            EXPECT(count, later);
            EXPECT(memcmp(frames, issued + from, written * sizeof *frames), 0);
            EXPECT(memcmp(frames + written, untouched, (COMMANDS - written) * sizeof *frames), 0);
        }
    for (int i = COMMANDS; i-- > 0;) {
        EXPECT(pf_peer_take(&context, late, issued[i].bytes, PF_FRAME_LEN, &put), PF_OK);
        EXPECT(put, PF_NEW);
    }
    EXPECT(pf_peer_frames(&context, late, 0, untouched, COMMANDS, &count), PF_OK);
    EXPECT(memcmp(untouched, issued, sizeof issued), 0);
    EXPECT(pf_close(&context), PF_OK);
}

/* A late frame costs the ticks since its own, and the base is the world at the horizon. */
static void counts_and_base(void) {
    pf_context context = {0};
    pf_peer peer;
    pf_frame frame;
    pf_counts counts;
    pf_body bodies[3], sealed[3];
    pf_contact contacts[8];
    pf_sizes sizes;
    uint32_t tick;
    EXPECT(pf_open(&context), PF_OK);
    EXPECT(pf_peer_new(&context, floor_scene(&context), 0, 16, &peer), PF_OK);
    EXPECT(pf_peer_meter(&context, peer, &counts), PF_OK);
    EXPECT(counts.ticks, 0);
    EXPECT(counts.collides, 0);
    EXPECT(pf_peer_advance(&context, peer, 10, &tick), PF_OK);
    EXPECT(pf_peer_push(&context, peer, 1, UPRIGHT, &frame), PF_OK);
    EXPECT(pf_peer_advance(&context, peer, 10, &tick), PF_OK);
    EXPECT(pf_peer_settle(&context, peer, &tick), PF_OK);
    EXPECT(pf_peer_meter(&context, peer, &counts), PF_OK);
    EXPECT(counts.ticks, 20);
    EXPECT(counts.collides > 0, 1);
    EXPECT(pf_peer_world(&context, peer, 12, sealed, 3, contacts, 8, &sizes), PF_OK);
    EXPECT(pf_peer_seal(&context, peer, 12), PF_OK);
    EXPECT(pf_peer_base(&context, peer, bodies, 3, contacts, 8, &sizes), PF_OK);
    EXPECT(sizes.bodies, 3);
    EXPECT(memcmp(bodies, sealed, sizeof bodies), 0);
    EXPECT(pf_peer_base(&context, peer, bodies, 2, contacts, 8, &sizes), PF_SMALL_BUFFER);
    EXPECT(pf_close(&context), PF_OK);
}

/* Gravity acts along its own axes, and a body's friction is its own. */
static void numbers_in_their_places(void) {
    const pf_material smooth = {PF_ONE, 0, 0};
    const pf_v2 gravity = {PF_ONE, -64 * PF_ONE}, half = {PF_ONE, PF_ONE};
    const pf_v2 floor = {90 * PF_ONE, PF_ONE}, under = {0, -PF_ONE}, above = {0, 50 * PF_ONE};
    const pf_v2 left = {-9 * PF_ONE, PF_ONE}, right = {9 * PF_ONE, PF_ONE};
    pf_context context = {0};
    pf_scene scene;
    pf_peer peer;
    pf_body bodies[4];
    pf_contact contacts[8];
    pf_sizes sizes;
    uint64_t body;
    uint32_t tick;
    EXPECT(pf_open(&context), PF_OK);
    EXPECT(pf_scene_new(&context, gravity, &scene), PF_OK);
    EXPECT(pf_scene_add_box(&context, scene, STATIC, floor, under, UPRIGHT, &body), PF_OK);
    EXPECT(pf_scene_add_box(&context, scene, smooth, half, left, UPRIGHT, &body), PF_OK);
    EXPECT(pf_scene_add_box(&context, scene, OF_PLAYER_0, half, right, UPRIGHT, &body), PF_OK);
    EXPECT(pf_scene_add_circle(&context, scene, OF_NOBODY, PF_ONE, above, &body), PF_OK);
    EXPECT(pf_peer_new(&context, scene, 0, 16, &peer), PF_OK);
    EXPECT(pf_peer_advance(&context, peer, 16, &tick), PF_OK);
    EXPECT(pf_peer_settle(&context, peer, &tick), PF_OK);
    EXPECT(pf_peer_world(&context, peer, 16, bodies, 4, contacts, 8, &sizes), PF_OK);
    EXPECT(bodies[1].vx, PF_ONE / 4);
    EXPECT(bodies[2].vx < PF_ONE / 8, 1);
    EXPECT(bodies[3].vx, PF_ONE / 4);
    EXPECT(bodies[3].vy, -16 * PF_ONE);
    EXPECT(pf_close(&context), PF_OK);
}

/* A peer's horizon, its settled and its reached tick are three numbers. */
static void ticks_of_a_peer(void) {
    pf_context context = {0};
    pf_peer peer;
    uint32_t tick;
    EXPECT(pf_open(&context), PF_OK);
    EXPECT(pf_peer_new(&context, floor_scene(&context), 0, 16, &peer), PF_OK);
    EXPECT(pf_peer_advance(&context, peer, 16, &tick), PF_OK);
    EXPECT(pf_peer_settle(&context, peer, &tick), PF_OK);
    EXPECT(pf_peer_seal(&context, peer, 5), PF_OK);
    EXPECT(pf_peer_advance(&context, peer, 1, &tick), PF_OK);
    EXPECT(pf_peer_horizon(&context, peer, &tick), PF_OK);
    EXPECT(tick, 5);
    EXPECT(pf_peer_settled(&context, peer, &tick), PF_OK);
    EXPECT(tick, 16);
    EXPECT(pf_peer_reached(&context, peer, &tick), PF_OK);
    EXPECT(tick, 17);
    EXPECT(pf_close(&context), PF_OK);
}

/* A circle on a floor: two bodies and one contact. */
static void lengths_in_their_places(void) {
    const pf_v2 floor = {9 * PF_ONE, PF_ONE}, under = {0, -PF_ONE}, above = {0, PF_ONE};
    pf_context context = {0};
    pf_scene scene;
    pf_peer peer;
    pf_body bodies[2];
    pf_contact contacts[2];
    pf_sizes sizes;
    uint64_t body;
    uint32_t tick;
    EXPECT(pf_open(&context), PF_OK);
    EXPECT(pf_scene_new(&context, DOWN, &scene), PF_OK);
    EXPECT(pf_scene_add_box(&context, scene, STATIC, floor, under, UPRIGHT, &body), PF_OK);
    EXPECT(pf_scene_add_circle(&context, scene, OF_NOBODY, PF_ONE, above, &body), PF_OK);
    EXPECT(pf_peer_new(&context, scene, 0, 1, &peer), PF_OK);
    EXPECT(pf_peer_advance(&context, peer, 1, &tick), PF_OK);
    EXPECT(pf_peer_seal(&context, peer, 1), PF_OK);
    EXPECT(pf_peer_base(&context, peer, bodies, 2, contacts, 1, &sizes), PF_OK);
    EXPECT(pf_peer_base(&context, peer, bodies, 1, contacts, 2, &sizes), PF_SMALL_BUFFER);
    EXPECT(pf_peer_world(&context, peer, 1, bodies, 2, contacts, 1, &sizes), PF_OK);
    EXPECT(pf_peer_world(&context, peer, 1, bodies, 1, contacts, 2, &sizes), PF_SMALL_BUFFER);
    EXPECT(pf_close(&context), PF_OK);
}

/* Buffers of each pair of lengths: one that is too small stays as it was. */
static void buffers(void) {
    enum { MOST = 6 };
    pf_context context = {0};
    pf_peer peer;
    uint32_t settled;
    EXPECT(pf_open(&context), PF_OK);
    EXPECT(pf_peer_new(&context, floor_scene(&context), 0, 4, &peer), PF_OK);
    EXPECT(pf_peer_advance(&context, peer, 8, &settled), PF_OK);
    EXPECT(pf_peer_settle(&context, peer, &settled), PF_OK);
    EXPECT(settled, 8);
    for (size_t b = 0; b <= MOST; b++)
        for (size_t c = 0; c <= MOST; c++) {
            pf_body bodies[MOST + 1], untouched[MOST + 1];
            pf_contact contacts[MOST + 1], none[MOST + 1];
            pf_sizes sizes = {0, 0};
            memset(bodies, 0x5a, sizeof bodies);
            memset(untouched, 0x5a, sizeof untouched);
            memset(contacts, 0x5a, sizeof contacts);
            memset(none, 0x5a, sizeof none);
            uint32_t code = pf_peer_world(&context, peer, 8, bodies, b, contacts, c, &sizes);
            EXPECT(sizes.bodies, 3);
            EXPECT(sizes.contacts, 3);
            EXPECT(code, b < 3 || c < 3 ? PF_SMALL_BUFFER : PF_OK);
            size_t written = code == PF_OK ? 3 : 0;
            EXPECT(memcmp(bodies + written, untouched, sizeof *bodies * (MOST + 1 - written)), 0);
            EXPECT(memcmp(contacts + written, none, sizeof *contacts * (MOST + 1 - written)), 0);
            if (code == PF_OK)
                EXPECT(bodies[0].y, -PF_ONE);
        }
    EXPECT(pf_close(&context), PF_OK);
}

/* A number of a scene at each limit of the header is allowed, and one beyond it is not. */
static void scene_limits(void) {
    pf_context context = {0};
    pf_scene scene;
    uint64_t body;
    EXPECT(pf_open(&context), PF_OK);
    for (int beyond = 0; beyond <= 1; beyond++) {
        pf_code bad_number = beyond ? PF_SCENE_BAD_NUMBER : PF_OK;
        pf_code bad_size = beyond ? PF_SCENE_BAD_SIZE : PF_OK;
        pf_code bad_mass = beyond ? PF_SCENE_BAD_MASS : PF_OK;
        pf_v2 gravity = {-PF_MAX_GRAVITY - beyond, 0}, at = {0, PF_MAX_POSITION + beyond};
        pf_material heavy = {PF_MAX_MASS + beyond, 0, 0}, light = {PF_MIN_MASS - beyond, 0, 0};
        pf_material rough = {PF_MIN_MASS, PF_MAX_FRICTION + beyond, 0};
        pf_v2 half = {PF_MAX_SIZE + beyond, PF_MIN_SIZE - beyond};
        EXPECT(pf_scene_new(&context, gravity, &scene), bad_number);
        EXPECT(pf_scene_new(&context, ORIGIN, &scene), PF_OK);
        EXPECT(pf_scene_add_circle(&context, scene, heavy, PF_ONE, ORIGIN, &body), bad_mass);
        EXPECT(pf_scene_add_circle(&context, scene, light, PF_ONE, ORIGIN, &body), bad_mass);
        EXPECT(pf_scene_add_circle(&context, scene, rough, PF_ONE, ORIGIN, &body), bad_number);
        EXPECT(pf_scene_add_circle(&context, scene, STATIC, PF_ONE, at, &body), bad_number);
        EXPECT(pf_scene_add_box(&context, scene, STATIC, half, ORIGIN, UPRIGHT, &body), bad_size);
    }
    for (int count = 0; count < PF_MAX_BODIES; count++)
        EXPECT(pf_scene_add_circle(&context, scene, STATIC, PF_ONE, ORIGIN, &body), PF_OK);
    EXPECT(pf_scene_add_circle(&context, scene, STATIC, PF_ONE, ORIGIN, &body), PF_SCENE_TOO_MANY);
    EXPECT(pf_close(&context), PF_OK);
}

/* The same of a peer. */
static void peer_limits(void) {
    pf_context context = {0};
    pf_scene scene;
    pf_peer peer;
    pf_frame frame;
    uint64_t body;
    uint32_t reached;
    EXPECT(pf_open(&context), PF_OK);
    EXPECT(pf_scene_new(&context, ORIGIN, &scene), PF_OK);
    EXPECT(pf_scene_add_circle(&context, scene, OF_PLAYER_0, PF_ONE, ORIGIN, &body), PF_OK);
    EXPECT(pf_peer_new(&context, scene, 0, PF_MAX_RING + 1, &peer), PF_BAD_RING);
    EXPECT(pf_peer_new(&context, scene, PF_MAX_PLAYERS, 1, &peer), PF_BAD_PLAYER);
    EXPECT(pf_peer_new(&context, scene, PF_MAX_PLAYERS - 1, 1, &peer), PF_OK);
    EXPECT(pf_peer_new(&context, scene, 0, PF_MAX_RING, &peer), PF_OK);
    for (int beyond = 0; beyond <= 1; beyond++) {
        pf_code code = beyond ? PF_BAD_NUMBER : PF_OK;
        pf_v2 impulse = {0, -PF_MAX_IMPULSE - beyond}, at = {-PF_MAX_POSITION - beyond, 0};
        EXPECT(pf_peer_push(&context, peer, 0, impulse, &frame), code);
        EXPECT(pf_peer_turn(&context, peer, 0, PF_MAX_IMPULSE + beyond, &frame), code);
        EXPECT(pf_peer_place(&context, peer, 0, at, &frame), code);
    }
    EXPECT(pf_peer_advance(&context, peer, PF_MAX_TICK, &reached), PF_OK);
    EXPECT(pf_peer_advance(&context, peer, 1, &reached), PF_TICK_LIMIT);
    EXPECT(pf_close(&context), PF_OK);
}

/* The library's version, and names and texts of all codes as strings. */
static void strings(void) {
    EXPECT(pf_version(), PF_VERSION);
    EXPECT(strcmp(pf_build(), BUILD), 0); /* as capi/check has it */
    for (uint32_t code = 0; code <= PF_NOT_OWNER + 1; code++) {
        char name[PF_NAME_LEN];
        uint64_t needed;
        EXPECT(pf_error_name(code, name, sizeof name, &needed), PF_OK);
        EXPECT(strcmp(pf_code_name(code), name), 0);
        char text[PF_TEXT_LEN];
        EXPECT(pf_error_text(code, text, sizeof text, &needed), PF_OK);
        EXPECT(strcmp(pf_code_text(code), text), 0);
        EXPECT(*text == 0, *name == 0);
    }
}

typedef pf_code writer(uint32_t code, char *text, size_t text_length, uint64_t *needed);

/* What a call writes for a code, into arrays of each length up to the most that it needs. */
static void written(writer *write, uint32_t code, const char *text, size_t most) {
    size_t needs = strlen(text) + 1;
    EXPECT(needs <= most, 1);
    for (size_t length = 0; length <= most; length++) {
        char array[PF_TEXT_LEN + 1], untouched[PF_TEXT_LEN + 1];
        uint64_t needed = 0;
        memset(array, '#', sizeof array);
        memset(untouched, '#', sizeof untouched);
        EXPECT(write(code, array, length, &needed), length < needs ? PF_SMALL_BUFFER : PF_OK);
        EXPECT(needed, needs);
        size_t count = length < needs ? 0 : needs;
        EXPECT(memcmp(array, text, count), 0);
        EXPECT(memcmp(array + count, untouched, sizeof array - count), 0);
    }
}

/* Names of codes, and what they mean. */
static void names(void) {
    static const struct {
        uint32_t code;
        const char *name, *text;
    } CODES[] = {
        {PF_OK, "PF_OK", "done"},
        {PF_OUT_OF_MEMORY, "PF_OUT_OF_MEMORY", "out of memory"},
        {PF_BAD_KEY, "PF_BAD_KEY", "the key names nothing"},
        {PF_FULL, "PF_FULL", "the context has no key left"},
        {PF_SCENE_BAD_SIZE, "PF_SCENE_BAD_SIZE",
         "a radius or a half extent is not from 1/16 to 1,024 (2^20 to 2^34 raw)"},
        {PF_NUMBERS_SPENT, "PF_NUMBERS_SPENT",
         "the player has no number left for a command at the reached tick"},
        {PF_BASES_DIFFER, "PF_BASES_DIFFER", "the other peer has another world at the horizon"},
        {PF_FRAME_NOT_CANONICAL, "PF_FRAME_NOT_CANONICAL",
         "a field that the command does not use is not 0"},
        {PF_NOT_OWNER, "PF_NOT_OWNER", "the body belongs to another player, or to nobody"},
        {PF_BAD_ROUNDING, "PF_BAD_ROUNDING", "the processor does not round to the nearest double"},
        {11, "", ""},
        {PF_NOT_OWNER + 1, "", ""},
        {UINT32_MAX, "", ""},
    };
    for (size_t i = 0; i < sizeof CODES / sizeof *CODES; i++) {
        written(pf_error_name, CODES[i].code, CODES[i].name, PF_NAME_LEN);
        written(pf_error_text, CODES[i].code, CODES[i].text, PF_TEXT_LEN);
    }
}

int main(void) {
    scene_limits();
    peer_limits();
    strings();
    names();
    closed_contexts();
    keys();
    text_errors();
    scene_errors();
    peer_errors();
    frame_errors();
    names_that_meet();
    numbers_of_a_tick();
    merging();
    frames_read_back();
    counts_and_base();
    numbers_in_their_places();
    ticks_of_a_peer();
    lengths_in_their_places();
    buffers();
    return failures != 0;
}
