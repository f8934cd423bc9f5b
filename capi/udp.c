/* A match of two processes over UDP. Each plays 300 ticks, pushes its own circle every 10 ticks,
 * and takes the other's frames whenever they come. Packets are lost, doubled and held back on
 * purpose, so frames come late, twice and out of order; each packet has all frames that the other
 * process has not confirmed. In the end both print one world.
 *
 *     udp PLAYER PORT OTHER_PORT       # udp 0 4000 4001 & udp 1 4001 4000 */
#include <arpa/inet.h>
#include <inttypes.h>
#include <poll.h>
#include <stdio.h>
#include <stdlib.h>
#include <string.h>
#include <sys/socket.h>
#include <unistd.h>

#include "pf.h"

enum {
    TICKS = 300,
    PUSH_EVERY = 10,
    FRAMES = TICKS / PUSH_EVERY, /* the frames of each player */
    BODIES = 3,
    CONTACTS = 8,
    RING = 64,
    MILLISECONDS = 2,   /* of a tick; a game takes 1000 / 64 */
    LAST_PACKETS = 200, /* sent when all is done, for the other process may still wait for one */
    TRIES = 20000       /* packets until the other process is given up */
};

/* What is sent: how many of the receiver's frames the sender has from the first one on, where the
 * frames in the packet begin, and the frames. Numbers in network byte order. */
struct packet {
    uint32_t confirmed;
    uint32_t first;
    pf_frame frames[FRAMES];
};

#define HEADER offsetof(struct packet, frames)

typedef struct player {
    pf_context context;
    pf_peer peer;
    int socket;
    uint32_t number;
    uint32_t random;
    pf_frame issued[FRAMES];
    uint32_t issued_count;
    uint32_t confirmed;      /* of the issued frames */
    bool has_come[FRAMES];   /* of the other player's frames */
    struct packet held_back; /* a packet that is sent after a later one */
    size_t held_back_length; /* 0 where there is none */
    unsigned lost, doubled, swapped, late;
} player;

static void check(uint32_t code, const char *call) {
    if (code != PF_OK) {
        fprintf(stderr, "udp: %s: code %" PRIu32 "\n", call, code);
        exit(1);
    }
}

#define CHECK(call) check((call), #call)

static const char SCENE[] = "gravity 0 -167772160\n"
                            "box - 0 8388608 335544320 16777216 0 -16777216 16777216 0\n"
                            "circle 0 16777216 8388608 16777216 -100663296 16777216\n"
                            "circle 1 16777216 8388608 16777216 100663296 16777216\n"
                            "end\n";

static void open_match(player *self) {
    pf_scene scene;
    uint64_t line;
    CHECK(pf_open(&self->context));
    CHECK(pf_scene_read(&self->context, (const uint8_t *)SCENE, strlen(SCENE), &scene, &line));
    CHECK(pf_peer_new(&self->context, scene, (uint8_t)self->number, RING, &self->peer));
}

static void open_socket(player *self, const char *port, const char *other_port) {
    struct sockaddr_in own = {.sin_family = AF_INET}, other = {.sin_family = AF_INET};
    own.sin_port = htons((uint16_t)atoi(port));
    other.sin_port = htons((uint16_t)atoi(other_port));
    own.sin_addr.s_addr = other.sin_addr.s_addr = htonl(INADDR_LOOPBACK);
    self->socket = socket(AF_INET, SOCK_DGRAM, 0);
    if (bind(self->socket, (struct sockaddr *)&own, sizeof own) != 0 ||
        connect(self->socket, (struct sockaddr *)&other, sizeof other) != 0) {
        perror("udp");
        exit(1);
    }
}

/* True once in so many times. */
static bool happens(player *self, uint32_t once_in) {
    self->random = self->random * 1664525 + 1013904223;
    return (self->random >> 16) % once_in == 0;
}

/* How many of the other player's frames have come, from the first one on. */
static uint32_t come(const player *self) {
    uint32_t count = 0;
    while (count < FRAMES && self->has_come[count])
        count++;
    return count;
}

/* A packet that cannot be sent is a packet that is lost. */
static void put_on_the_wire(player *self, const struct packet *packet, size_t length) {
    if (send(self->socket, packet, length, 0) < 0)
        self->lost++;
}

/* Sends the frames that are not confirmed; or loses the packet, doubles it, or holds it back. */
static void send_frames(player *self) {
    uint32_t count = self->issued_count - self->confirmed;
    size_t length = HEADER + count * sizeof(pf_frame);
    struct packet packet = {htonl(come(self)), htonl(self->confirmed), {{{0}}}};
    memcpy(packet.frames, self->issued + self->confirmed, count * sizeof(pf_frame));
    if (happens(self, 3)) {
        self->lost++;
        return;
    }
    if (self->held_back_length == 0 && happens(self, 4)) {
        self->held_back = packet;
        self->held_back_length = length;
        return;
    }
    put_on_the_wire(self, &packet, length);
    if (happens(self, 4)) {
        put_on_the_wire(self, &packet, length);
        self->doubled++;
    }
    if (self->held_back_length != 0 && happens(self, 2)) {
        put_on_the_wire(self, &self->held_back, self->held_back_length);
        self->held_back_length = 0;
        self->swapped++;
    }
}

/* Takes the frames of a packet. */
static void take_frames(player *self, const struct packet *packet, size_t count) {
    uint32_t settled, put, first = ntohl(packet->first), confirmed = ntohl(packet->confirmed);
    if (confirmed > self->confirmed && confirmed <= self->issued_count)
        self->confirmed = confirmed;
    CHECK(pf_peer_settled(&self->context, self->peer, &settled));
    for (uint32_t i = 0; i < count && first < FRAMES && first + i < FRAMES; i++) {
        const pf_frame *frame = &packet->frames[i];
        CHECK(pf_peer_take(&self->context, self->peer, frame->bytes, PF_FRAME_LEN, &put));
        self->has_come[first + i] = true;
        if (put == PF_NEW && (first + i) * PUSH_EVERY < settled)
            self->late++;
    }
}

/* Takes what comes within a tick's time. */
static void receive_frames(player *self) {
    struct pollfd ready = {.fd = self->socket, .events = POLLIN};
    while (poll(&ready, 1, MILLISECONDS) > 0) {
        struct packet packet;
        ssize_t length = recv(self->socket, &packet, sizeof packet, 0);
        if (length >= (ssize_t)HEADER)
            take_frames(self, &packet, ((size_t)length - HEADER) / sizeof(pf_frame));
        else if (length < 0)
            return;
    }
}

static void play_tick(player *self, uint32_t tick) {
    uint32_t number;
    if (tick % PUSH_EVERY == 0) {
        int64_t towards = self->number == 0 ? PF_ONE : -PF_ONE;
        pf_frame *frame = &self->issued[self->issued_count++];
        pf_v2 impulse = {towards, tick % 3 * PF_ONE};
        CHECK(
            pf_peer_push(&self->context, self->peer, (uint16_t)(1 + self->number), impulse, frame));
    }
    CHECK(pf_peer_advance(&self->context, self->peer, 1, &number));
    CHECK(pf_peer_settle(&self->context, self->peer, &number));
}

/* Sends and receives until both players have all frames. */
static void exchange_the_rest(player *self) {
    int tries = 0, last = LAST_PACKETS;
    while (last > 0) {
        if (tries++ == TRIES) {
            fprintf(stderr, "udp: the other process is silent\n");
            exit(1);
        }
        if (come(self) == FRAMES && self->confirmed == FRAMES)
            last--;
        send_frames(self);
        receive_frames(self);
    }
}

static void print_world(player *self) {
    pf_body bodies[BODIES];
    pf_contact contacts[CONTACTS];
    pf_sizes sizes;
    uint32_t settled;
    CHECK(pf_peer_settle(&self->context, self->peer, &settled));
    CHECK(pf_peer_world(&self->context, self->peer, settled, bodies, BODIES, contacts, CONTACTS,
                        &sizes));
    printf("tick %" PRIu32 "\n", settled);
    for (uint64_t i = 0; i < sizes.bodies; i++)
        printf("body %" PRIu64 " at %" PRId64 " %" PRId64 ", velocity %" PRId64 " %" PRId64 "\n", i,
               bodies[i].x, bodies[i].y, bodies[i].vx, bodies[i].vy);
}

int main(int count, char **arguments) {
    static player self;
    if (count != 4) {
        fprintf(stderr, "udp PLAYER PORT OTHER_PORT\n");
        return 2;
    }
    self.number = self.random = atoi(arguments[1]) == 0 ? 0 : 1;
    open_match(&self);
    open_socket(&self, arguments[2], arguments[3]);
    for (uint32_t tick = 0; tick < TICKS; tick++) {
        play_tick(&self, tick);
        send_frames(&self);
        receive_frames(&self);
    }
    exchange_the_rest(&self);
    print_world(&self);
    fprintf(stderr, "player %" PRIu32 ": %u packets lost, %u doubled, %u swapped, %u frames late\n",
            self.number, self.lost, self.doubled, self.swapped, self.late);
    CHECK(pf_close(&self.context));
    return close(self.socket);
}
