/* Two peers of one match. Player 0 pushes its circle at tick 0, player 1 its own at tick 5, and
 * each goes on by itself to tick 20: each shows another world. Then the frames come, and both show
 * one.
 *
 * Prints, byte for byte, what `./play run < examples/two-peers.txt` prints. */
#include <inttypes.h>
#include <stdio.h>
#include <stdlib.h>
#include <string.h>

#include "pf.h"

#define BODIES 2
#define CONTACTS 2
#define RING 16

static const char SCENE[] = "gravity 0 0\n"
                            "circle 0 16777216 8388608 16777216 0 0\n"
                            "circle 1 16777216 8388608 16777216 67108864 0\n"
                            "end\n";

static void check(uint32_t code) {
    if (code != PF_OK) {
        fprintf(stderr, "demo: code %" PRIu32 "\n", code);
        exit(1);
    }
}

static void print_frame(int number, const pf_frame *frame) {
    printf("issue %d ", number);
    for (size_t i = 0; i < PF_FRAME_LEN; i++)
        printf("%02x", frame->bytes[i]);
    printf("\n");
}

static void advance(pf_context *context, pf_peer peer, int number, uint32_t ticks) {
    uint32_t reached;
    check(pf_peer_advance(context, peer, ticks, &reached));
    printf("advance %d %" PRIu32 "\n", number, reached);
}

static void settle(pf_context *context, pf_peer peer, int number) {
    uint32_t settled;
    check(pf_peer_settle(context, peer, &settled));
    printf("settle %d %" PRIu32 "\n", number, settled);
}

static void take(pf_context *context, pf_peer peer, int number, const pf_frame *frame) {
    static const char *const names[] = {"new", "same", "greater", "lesser"};
    uint32_t put;
    check(pf_peer_take(context, peer, frame->bytes, PF_FRAME_LEN, &put));
    printf("take %d %s\n", number, names[put]);
}

static void show(pf_context *context, pf_peer peer, int number, uint32_t tick) {
    pf_body bodies[BODIES];
    pf_contact contacts[CONTACTS];
    pf_sizes sizes;
    check(pf_peer_world(context, peer, tick, bodies, BODIES, contacts, CONTACTS, &sizes));
    printf("show %d %" PRIu32 "\n", number, tick);
    for (uint64_t i = 0; i < sizes.bodies; i++) {
        const pf_body *b = &bodies[i];
        printf("body %" PRIu64 " %" PRId64 " %" PRId64 " %" PRId64 " %" PRId64, i, b->x, b->y, b->c,
               b->s);
        printf(" %" PRId64 " %" PRId64 " %" PRId64 " %" PRIu32 " %" PRIu32 "\n", b->vx, b->vy,
               b->spin, b->timer, b->awake);
    }
    for (uint64_t i = 0; i < sizes.contacts; i++) {
        const pf_contact *c = &contacts[i];
        printf("contact %u %u %" PRIu32 " %" PRId64 " %" PRId64 "\n", c->a, c->b, c->feature,
               c->normal, c->tangent);
    }
    printf("end\n");
}

int main(void) {
    pf_context context = {0};
    pf_scene scene;
    pf_peer peers[2];
    pf_frame first, second;
    uint64_t line;

    check(pf_open(&context));
    check(pf_scene_read(&context, (const uint8_t *)SCENE, strlen(SCENE), &scene, &line));
    for (uint8_t player = 0; player < 2; player++)
        check(pf_peer_new(&context, scene, player, RING, &peers[player]));

    check(pf_peer_push(&context, peers[0], 0, (pf_v2){6 * PF_ONE, 0}, &first));
    print_frame(0, &first);
    advance(&context, peers[0], 0, 20);
    settle(&context, peers[0], 0);
    show(&context, peers[0], 0, 20);

    advance(&context, peers[1], 1, 5);
    check(pf_peer_push(&context, peers[1], 1, (pf_v2){-2 * PF_ONE, PF_ONE / 4}, &second));
    print_frame(1, &second);
    advance(&context, peers[1], 1, 15);
    settle(&context, peers[1], 1);
    show(&context, peers[1], 1, 20);

    take(&context, peers[1], 1, &first);
    take(&context, peers[0], 0, &second);
    take(&context, peers[0], 0, &second);
    settle(&context, peers[0], 0);
    settle(&context, peers[1], 1);
    show(&context, peers[0], 0, 20);
    show(&context, peers[1], 1, 20);

    check(pf_close(&context));
    return 0;
}
