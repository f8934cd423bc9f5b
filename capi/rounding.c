/* In each mode of rounding but the usual one, opening a context and making a peer are refused, and
 * change nothing. */
#include "pf.h"
#include <fenv.h>
#include <stdio.h>
#include <string.h>

static int failures = 0;

static void expect(const char *what, uint64_t value, uint64_t expected) {
    if (value != expected) {
        printf("%s is %llu, not %llu\n", what, (unsigned long long)value,
               (unsigned long long)expected);
        failures += 1;
    }
}

/* What a mode of rounding does to an open context with a scene, and to a closed one. */
static void try_mode(const char *mode, int rounding, pf_code code) {
    pf_context context = {0}, other = {0};
    pf_scene scene;
    pf_peer peer, none;
    memset(&peer, '#', sizeof peer);
    memset(&none, '#', sizeof none);
    expect("opening", pf_open(&context), PF_OK);
    expect("a scene", pf_scene_new(&context, (pf_v2){0, 0}, &scene), PF_OK);
    if (fesetround(rounding) != 0) {
        printf("no mode %s\n", mode);
        failures += 1;
    }
    pf_code opened = pf_open(&other), made = pf_peer_new(&context, scene, 0, 1, &peer);
    fesetround(FE_TONEAREST);
    expect(mode, opened, code);
    expect(mode, made, code);
    expect("that it is open", other.is_open, code == PF_OK);
    expect("that the key was written", memcmp(&peer, &none, sizeof peer) != 0, code == PF_OK);
    expect("closing", pf_close(&other), code == PF_OK ? PF_OK : PF_CLOSED);
    expect("closing", pf_close(&context), PF_OK);
}

int main(void) {
    try_mode("to nearest", FE_TONEAREST, PF_OK);
    try_mode("upward", FE_UPWARD, PF_BAD_ROUNDING);
    try_mode("downward", FE_DOWNWARD, PF_BAD_ROUNDING);
    try_mode("toward zero", FE_TOWARDZERO, PF_BAD_ROUNDING);
    return failures != 0;
}
