/* What of the library is written in C, around the module that is proved: the mode in which the
 * processor rounds, of which no contract speaks, the version, what is proved, and the names of
 * codes as strings. */
#include "pf.h"

/* The calls of the module. capi/build gives them these names. */
pf_code module_pf_open(pf_context *context);
pf_code module_pf_peer_new(pf_context *context, pf_scene scene, uint8_t player, uint32_t ring,
                           pf_peer *peer);

/* Whether the processor rounds to the nearest. The sums are made here and now, in the mode of the
 * thread that calls. */
static bool rounds_to_nearest(void) {
    volatile double one = 1, tiny = 1.0 / (INT64_C(1) << 55);
    return one + tiny == one && one - tiny == one;
}

pf_code pf_open(pf_context *context) {
    return rounds_to_nearest() ? module_pf_open(context) : PF_BAD_ROUNDING;
}

pf_code pf_peer_new(pf_context *context, pf_scene scene, uint8_t player, uint32_t ring,
                    pf_peer *peer) {
    return rounds_to_nearest() ? module_pf_peer_new(context, scene, player, ring, peer)
                               : PF_BAD_ROUNDING;
}

uint32_t pf_version(void) { return PF_VERSION; }

/* capi/build says what it is: it knows which module this is linked with. */
#ifndef PF_BUILD
#error "PF_BUILD is the string that pf_build returns"
#endif

const char *pf_build(void) { return PF_BUILD; }

/* Each code, and what it means. */
#define CODES(CODE)                                                                                \
    CODE(PF_OK, "done")                                                                            \
    CODE(PF_OUT_OF_MEMORY, "out of memory")                                                        \
    CODE(PF_BAD_ROUNDING, "the processor does not round to the nearest double")                    \
    CODE(PF_CLOSED, "the context is closed")                                                       \
    CODE(PF_BAD_KEY, "the key names nothing")                                                      \
    CODE(PF_SMALL_BUFFER, "a buffer is too small")                                                 \
    CODE(PF_BAD_PLAYER, "the number of a player is not below 8")                                   \
    CODE(PF_BAD_RING, "the number of settled worlds to keep is not from 1 to 64")                  \
    CODE(PF_BAD_NUMBER, "a number is out of its range: within 2^31, of a place 2^20")              \
    CODE(PF_STILL_OPEN, "the context is open already")                                             \
    CODE(PF_FULL, "the context has no key left")                                                   \
    CODE(PF_SCENE_BAD_LINE, "no such line may stand here")                                         \
    CODE(PF_SCENE_BAD_NUMBER,                                                                      \
         "a number is not whole, or out of its range: friction is 0 to 4,"                         \
         " gravity within 1,024, a position within 2^20, a direction within 1, an owner 0 to 7")   \
    CODE(PF_SCENE_TOO_MANY, "the scene has 1,024 bodies already")                                  \
    CODE(PF_SCENE_BAD_MASS, "a mass is neither 0 nor from 1/16 to 1,024 (2^20 to 2^34 raw)")       \
    CODE(PF_SCENE_BAD_SIZE,                                                                        \
         "a radius or a half extent is not from 1/16 to 1,024 (2^20 to 2^34 raw)")                 \
    CODE(PF_TICK_LIMIT, "the last tick, 1,048,576, leaves no tick for this")                       \
    CODE(PF_NUMBERS_SPENT, "the player has no number left for a command at the reached tick")      \
    CODE(PF_NOT_REACHED, "the tick is above the reached tick")                                     \
    CODE(PF_TOO_OLD, "the tick is before the horizon: what came before it is sealed")              \
    CODE(PF_HORIZONS_DIFFER, "the horizons differ")                                                \
    CODE(PF_BASES_DIFFER, "the other peer has another world at the horizon")                       \
    CODE(PF_FRAME_SHORT, "the frame has fewer than 27 bytes")                                      \
    CODE(PF_FRAME_LONG, "the frame has more than 27 bytes")                                        \
    CODE(PF_FRAME_BAD_VERSION, "the frame begins with neither 1 nor 2")                            \
    CODE(PF_FRAME_BAD_KIND,                                                                        \
         "the kind is none of its version: 0 to 2 of version 1, 3 of version 2")                   \
    CODE(PF_FRAME_NOT_CANONICAL, "a field that the command does not use is not 0")                 \
    CODE(PF_FRAME_OUT_OF_RANGE,                                                                    \
         "a field is out of its range: the tick is below 2^20, the player below 8,"                \
         " the body below 1,024, a number within 2^31, or of a place within 2^20")                 \
    CODE(PF_UNKNOWN_BODY, "the scene has no body of this number")                                  \
    CODE(PF_STATIC_BODY, "the body is static")                                                     \
    CODE(PF_NOT_OWNER, "the body belongs to another player, or to nobody")

const char *pf_code_name(uint32_t code) {
#define NAME(code, text)                                                                           \
    case code:                                                                                     \
        return #code;
    switch (code) {
        CODES(NAME)
    default:
        return "";
    }
}

const char *pf_code_text(uint32_t code) {
#define TEXT(code, text)                                                                           \
    case code:                                                                                     \
        return text;
    switch (code) {
        CODES(TEXT)
    default:
        return "";
    }
}
