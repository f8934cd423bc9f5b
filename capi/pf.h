/* Buyosen: a deterministic 2D physics core for rollback netcode, behind C.
 *
 * Peers made of the same scene that have taken the same commands show the same worlds, bit for bit:
 * however late, in which order and how often the frames of the commands came. A peer refuses a
 * frame for a tick before its horizon (pf_peer_seal).
 *
 * Units. Numbers are whole numbers in units of 2^-24, so 1 is PF_ONE: positions, sizes, masses,
 * coefficients of friction, the cosine and sine of a rotation; velocities, in lengths per second;
 * angular velocities, in radians per second; gravity, in lengths per second squared; impulses, mass
 * times velocity; angular impulses, inertia times angular velocity. A tick is 1/64 s.
 *
 * A context holds scenes and peers. It begins as zeros, `pf_context context = {0};`. A key names a
 * scene or a peer of a context. A key that the context has not given out since it was opened, or
 * whose scene or peer was freed, names nothing: the call returns PF_BAD_KEY and changes nothing. A
 * key of another context, or of before pf_close, or of zeros, may be equal to one that the context
 * has given out; then it names what that one names. No key can crash a call.
 *
 * What the caller promises:
 *  1. a pf_context is all zeros before pf_open, is changed by these calls alone, and is not copied
 *     while it is open;
 *  2. each pointer is aligned, not null, also where its length is 0, and live for its length, and
 *     what it points to overlaps no other argument;
 *  3. calls on one context do not overlap: several threads use a lock, or a join, and calls on
 *     different contexts need none;
 *  4. no call comes from a signal handler, or from the child of a fork of a program with threads,
 *     and none is left before it returns, by longjmp or by cancelling its thread;
 *  5. malloc, realloc and free are those of one allocator, and may be called from any thread;
 *  6. the processor rounds to the nearest, as it does unless fesetround says otherwise: in another
 *     mode worlds are others. pf_open and pf_peer_new see that, and return PF_BAD_ROUNDING.
 *
 * Each call returns PF_OK, or why it failed. A call that fails changes nothing but what is said
 * below of pf_peer_settle and pf_peer_seal. It leaves its outputs, the last parameters, as they
 * were, but for the line of pf_scene_read, and for what an array that is too small would need. No
 * call starts a thread or waits.
 */
#ifndef PF_H
#define PF_H

#include <stdbool.h>
#include <stddef.h>
#include <stdint.h>

#ifdef __cplusplus
extern "C" {
#endif

/* The version of this header. pf_version returns that of the library. */
#define PF_VERSION_MAJOR 0
#define PF_VERSION_MINOR 1
#define PF_VERSION_PATCH 0
#define PF_VERSION (PF_VERSION_MAJOR << 16 | PF_VERSION_MINOR << 8 | PF_VERSION_PATCH)

#define PF_ONE INT64_C(16777216) /* 1, in units of 2^-24 */
#define PF_TICKS_PER_SECOND 64
#define PF_FRAME_LEN 27 /* the bytes of a command */
#define PF_NOBODY 255   /* the owner of a body that no player may move */
#define PF_NAME_LEN 32  /* bytes that the name of each code fits into */
#define PF_TEXT_LEN 160 /* bytes that the text of each code fits into */

/* Limits, of numbers in units of 2^-24. A negative number is at least the limit's negative. */
#define PF_MAX_BODIES 1024
#define PF_MAX_PLAYERS 8
#define PF_MAX_RING 64
#define PF_MAX_TICK 1048576
#define PF_MIN_SIZE (INT64_C(1) << 20) /* of radii and half extents */
#define PF_MAX_SIZE (INT64_C(1) << 34)
#define PF_MIN_MASS (INT64_C(1) << 20) /* of a body that is not static */
#define PF_MAX_MASS (INT64_C(1) << 34)
#define PF_MAX_FRICTION (INT64_C(1) << 26)
#define PF_MAX_POSITION (INT64_C(1) << 44)
#define PF_MAX_GRAVITY (INT64_C(1) << 34)
#define PF_MAX_IMPULSE ((INT64_C(1) << 55) - 1)

/* What a call returns: PF_OK, or why it failed. */
typedef enum pf_code {
    PF_OK = 0,
    PF_OUT_OF_MEMORY = 1,
    PF_BAD_ROUNDING = 2, /* the processor does not round to the nearest */
    PF_CLOSED = 3,       /* the context is closed */
    PF_BAD_KEY = 4,      /* the key names nothing here */
    PF_SMALL_BUFFER = 5, /* a buffer is too small, and nothing was written to it */
    PF_BAD_PLAYER = 6,   /* the player is not below PF_MAX_PLAYERS */
    PF_BAD_RING = 7,     /* the ring is not from 1 to PF_MAX_RING */
    PF_BAD_NUMBER = 8,   /* a number of a command is out of its range */
    PF_STILL_OPEN = 9,   /* the context is open already */
    PF_FULL = 10,        /* the context has no key left */

    /* What is wrong with a scene. */
    PF_SCENE_BAD_LINE = 16,   /* not a line that may stand here */
    PF_SCENE_BAD_NUMBER = 17, /* a number is out of its range */
    PF_SCENE_TOO_MANY = 18,   /* the scene has PF_MAX_BODIES bodies already */
    PF_SCENE_BAD_MASS = 19,   /* a mass is neither 0 nor from PF_MIN_MASS to PF_MAX_MASS */
    PF_SCENE_BAD_SIZE = 20,   /* a radius or half extent is out of its range */

    /* Why a peer refuses a call. */
    PF_TICK_LIMIT = 32,      /* no tick is above PF_MAX_TICK */
    PF_NUMBERS_SPENT = 33,   /* the player has no number left for a command at this tick */
    PF_NOT_REACHED = 34,     /* the peer has not reached the tick */
    PF_TOO_OLD = 35,         /* the tick is before the peer's horizon */
    PF_HORIZONS_DIFFER = 36, /* the two peers have sealed different ticks */
    PF_BASES_DIFFER = 37,    /* the two peers have different worlds at their horizon */

    /* Why bytes are no frame. */
    PF_FRAME_SHORT = 48,
    PF_FRAME_LONG = 49,
    PF_FRAME_BAD_VERSION = 50,
    PF_FRAME_BAD_KIND = 51,
    PF_FRAME_NOT_CANONICAL = 52, /* bytes that its kind does not use are not 0 */
    PF_FRAME_OUT_OF_RANGE = 53,

    /* Why the peer's scene does not allow a command. */
    PF_UNKNOWN_BODY = 64, /* the scene has no body of this number */
    PF_STATIC_BODY = 65,  /* the body is static */
    PF_NOT_OWNER = 66,    /* the body is of another player, or of nobody */

    PF_CODE_IS_32_BITS = 0x7fffffff /* no code: with it the type has 32 bits in each compiler */
} pf_code;

/* What pf_peer_take did. */
typedef enum pf_put {
    PF_NEW = 0,     /* the peer did not hold a command of this name */
    PF_SAME = 1,    /* it held this one already */
    PF_GREATER = 2, /* it held another one of this name, which gave way to this one */
    PF_LESSER = 3,  /* it held another one of this name, which stays */

    PF_PUT_IS_32_BITS = 0x7fffffff
} pf_put;

/* A context. Its members are not for the caller. */
typedef struct pf_context {
    bool is_open;
    void *at;
} pf_context;

typedef struct pf_key {
    uint32_t index;
    uint32_t generation;
} pf_key;

typedef struct pf_scene {
    pf_key key;
} pf_scene;

typedef struct pf_peer {
    pf_key key;
} pf_peer;

/* A position, an impulse, an acceleration; or a direction: x is its cosine, y its sine. */
typedef struct pf_v2 {
    int64_t x;
    int64_t y;
} pf_v2;

/* What a body is beside its shape. */
typedef struct pf_material {
    int64_t mass;     /* 0 of a static body, or from PF_MIN_MASS to PF_MAX_MASS */
    int64_t friction; /* the coefficient of friction, from 0 to PF_MAX_FRICTION */
    uint8_t owner;    /* the player who may move it, or PF_NOBODY */
} pf_material;

/* A command, as peers send it. */
typedef struct pf_frame {
    uint8_t bytes[PF_FRAME_LEN];
} pf_frame;

/* A body of a world. */
typedef struct pf_body {
    int64_t x, y;   /* the position of its centre */
    int64_t c, s;   /* the cosine and sine of its rotation */
    int64_t vx, vy; /* its velocity */
    int64_t spin;   /* its angular velocity */
    uint32_t timer; /* for how many ticks it has been still; 0 where it is asleep */
    uint32_t awake; /* 1 where it is simulated, 0 where it is static or asleep */
} pf_body;

/* A contact of a world: two bodies by their numbers, the feature that makes the point, and the
 * impulses that it has accumulated. */
typedef struct pf_contact {
    uint16_t a, b;
    uint32_t feature;
    int64_t normal, tangent;
} pf_contact;

/* How many bodies and contacts a world has. */
typedef struct pf_sizes {
    uint64_t bodies;
    uint64_t contacts;
} pf_sizes;

/* How much work was done to settle and to seal ticks of a peer. */
typedef struct pf_counts {
    uint64_t ticks;    /* the ticks that were simulated */
    uint64_t collides; /* the pairs of bodies whose contact points could not be reused */
} pf_counts;

/* The version of the library, as PF_VERSION has that of the header: 0.1.0 is 0x000100. */
uint32_t pf_version(void);

/* How much of the library is proved:
 * "proved": its module, which all calls go to, was proved for this machine;
 * "proved for x86-64 Linux": it was proved for that machine, and then compiled for this one, which
 *     nothing proves;
 * "unproved": nothing is: the sources were compiled without a proof. */
const char *pf_build(void);

/* The name of a code, as "PF_BAD_KEY", and what it means, as "the key names nothing". Of a number
 * that is no code both are empty. */
const char *pf_code_name(uint32_t code);
const char *pf_code_text(uint32_t code);

/* The same for languages that pass arrays: writes the name, or the text, with a zero behind it, to
 * the front of an array, and how many bytes that takes: also where the call returns
 * PF_SMALL_BUFFER. */
pf_code pf_error_name(uint32_t code, char *name, size_t name_length, uint64_t *needed);
pf_code pf_error_text(uint32_t code, char *text, size_t text_length, uint64_t *needed);

/* --- Contexts ------------------------------------------------------------------------------- */

/* Opens a context that is closed. It has no scenes and no peers. */
pf_code pf_open(pf_context *context);

/* Closes a context, and frees all that it holds. It may be opened again. */
pf_code pf_close(pf_context *context);

/* --- Scenes --------------------------------------------------------------------------------- */

/* Reads a scene from a text (docs/FORMATS.md). Where a line is invalid, the call returns a
 * PF_SCENE_ code and writes the line's number, counted from 1, to `line`. */
pf_code pf_scene_read(pf_context *context, const uint8_t *text, size_t length, pf_scene *scene,
                      uint64_t *line);

/* Makes a scene without bodies. Gravity is at most PF_MAX_GRAVITY on each axis. */
pf_code pf_scene_new(pf_context *context, pf_v2 gravity, pf_scene *scene);

/* Adds a circle to a scene: its radius is from PF_MIN_SIZE to PF_MAX_SIZE, its position at most
 * PF_MAX_POSITION on each axis. Its number is written to `body`: bodies are numbered from 0, and at
 * most PF_MAX_BODIES are there, so the uint16_t that commands take holds it. A peer that is made
 * later has it, one that was made before has not. */
pf_code pf_scene_add_circle(pf_context *context, pf_scene scene, pf_material material,
                            int64_t radius, pf_v2 position, uint64_t *body);

/* Adds a box of these half extents, each from PF_MIN_SIZE to PF_MAX_SIZE, turned into this
 * direction, each part of which is from -PF_ONE to PF_ONE: {PF_ONE, 0} is upright, and so is
 * {0, 0}. */
pf_code pf_scene_add_box(pf_context *context, pf_scene scene, pf_material material, pf_v2 half,
                         pf_v2 position, pf_v2 direction, uint64_t *body);

/* Frees a scene. Peers have copies, and stay. */
pf_code pf_scene_free(pf_context *context, pf_scene scene);

/* --- Peers ---------------------------------------------------------------------------------- */

/* Makes a peer of a scene, at tick 0. All players of a match begin with the same scene. `ring` is
 * how many of the last settled worlds it keeps, from 1 to PF_MAX_RING: a frame that is late by
 * fewer ticks costs only the ticks since its own. */
pf_code pf_peer_new(pf_context *context, pf_scene scene, uint8_t player, uint32_t ring,
                    pf_peer *peer);

/* Frees a peer. */
pf_code pf_peer_free(pf_context *context, pf_peer peer);

/* --- Commands ------------------------------------------------------------------------------- */

/* Issue a command of the peer's player at the tick that the peer has reached, and write the frame
 * to send to all others. It acts in the tick that the next pf_peer_advance adds. Impulses are at
 * most PF_MAX_IMPULSE, positions at most PF_MAX_POSITION; a number beyond is PF_BAD_NUMBER, also
 * where the peer's key names nothing. */
pf_code pf_peer_push(pf_context *context, pf_peer peer, uint16_t body, pf_v2 impulse,
                     pf_frame *frame);
pf_code pf_peer_turn(pf_context *context, pf_peer peer, uint16_t body, int64_t impulse,
                     pf_frame *frame);
pf_code pf_peer_stop(pf_context *context, pf_peer peer, uint16_t body, pf_frame *frame);
pf_code pf_peer_place(pf_context *context, pf_peer peer, uint16_t body, pf_v2 position,
                      pf_frame *frame);

/* Takes a frame that has come, late or not, and writes what it did: PF_NEW to PF_LESSER. The player
 * that the frame names is believed, and a frame for any later tick is kept: a game that does not
 * trust its peers tests both, and limits how many frames it takes. */
pf_code pf_peer_take(pf_context *context, pf_peer peer, const uint8_t *frame, size_t length,
                     pf_put *put);

/* Takes all commands that another peer of the context holds, and writes how many changed the
 * peer. It is refused unless both have sealed the same tick, with the same world there. */
pf_code pf_peer_merge(pf_context *context, pf_peer peer, pf_peer other, uint64_t *count);

/* The same, whatever the other peer has sealed: refused where it holds a command for a tick before
 * the horizon of this one, or one that this one's scene does not allow. What the other peer has
 * dropped does not come. */
pf_code pf_peer_merge_alone(pf_context *context, pf_peer peer, pf_peer other, uint64_t *count);

/* Writes the frames of the commands that the peer holds for this tick and later ones, of all
 * players, by tick, player and number, to the front of an array, and writes how many they are:
 * also where the call returns PF_SMALL_BUFFER. They are all that a replay needs, if nothing was
 * sealed. */
pf_code pf_peer_frames(pf_context *context, pf_peer peer, uint32_t tick, pf_frame *frames,
                       size_t frames_length, uint64_t *count);

/* --- Ticks ---------------------------------------------------------------------------------- */

/* Goes on by some ticks, simulates nothing, and writes the tick that the peer has reached. */
pf_code pf_peer_advance(pf_context *context, pf_peer peer, uint32_t ticks, uint32_t *reached);

/* Simulates up to the reached tick, and writes it. After PF_OUT_OF_MEMORY the ticks before stay
 * settled, and a later call goes on from there. */
pf_code pf_peer_settle(pf_context *context, pf_peer peer, uint32_t *settled);

/* Seals a tick that the peer has reached: what came before it is forgotten, and frames of before
 * are refused from then on. It may simulate up to the tick: after PF_OUT_OF_MEMORY only the counts
 * of pf_peer_meter have changed. */
pf_code pf_peer_seal(pf_context *context, pf_peer peer, uint32_t tick);

/* Writes the tick that the peer has reached. */
pf_code pf_peer_reached(pf_context *context, pf_peer peer, uint32_t *tick);

/* Writes the greatest tick whose world the peer keeps. */
pf_code pf_peer_settled(pf_context *context, pf_peer peer, uint32_t *tick);

/* Writes the peer's horizon: the tick that it has sealed, at first 0. */
pf_code pf_peer_horizon(pf_context *context, pf_peer peer, uint32_t *tick);

/* Writes how much work was done to settle and to seal ticks: a late frame that cost more than it
 * should shows here. */
pf_code pf_peer_meter(pf_context *context, pf_peer peer, pf_counts *counts);

/* --- Worlds --------------------------------------------------------------------------------- */

/* Writes the world at a tick, from the horizon to the tick that the peer has reached, to the fronts
 * of two arrays, and writes how many bodies and contacts it has: also where the call returns
 * PF_SMALL_BUFFER. A kept world costs a copy, another one its simulation from the kept world before
 * it. */
pf_code pf_peer_world(pf_context *context, pf_peer peer, uint32_t tick, pf_body *bodies,
                      size_t bodies_length, pf_contact *contacts, size_t contacts_length,
                      pf_sizes *sizes);

/* Writes the world at the peer's horizon, as pf_peer_world does, but simulates nothing and takes no
 * memory. */
pf_code pf_peer_base(pf_context *context, pf_peer peer, pf_body *bodies, size_t bodies_length,
                     pf_contact *contacts, size_t contacts_length, pf_sizes *sizes);

/* Older names of these calls, for one release: for C sources. The library has the new ones
 * alone. */
#ifndef PF_NO_OLD_NAMES
#define pf_circle pf_scene_add_circle
#define pf_box pf_scene_add_box
#define pf_push pf_peer_push
#define pf_turn pf_peer_turn
#define pf_stop pf_peer_stop
#define pf_place pf_peer_place
#define pf_take pf_peer_take
#define pf_merge pf_peer_merge
#define pf_merge_alone pf_peer_merge_alone
#define pf_frames pf_peer_frames
#define pf_advance pf_peer_advance
#define pf_settle pf_peer_settle
#define pf_seal pf_peer_seal
#define pf_reached pf_peer_reached
#define pf_settled pf_peer_settled
#define pf_horizon pf_peer_horizon
#define pf_meter pf_peer_meter
#define pf_world pf_peer_world
#define pf_base pf_peer_base
#endif

#ifdef __cplusplus
}
#endif

#endif
