/* The floating-point state of the thread, which include/mixer.h wants to be the default one: what calls answer in it, and what they answer in others.
 * A state that changed nothing would be needless to name there, so that is seen here too. x86-64: the state is the register MXCSR. */
#define _POSIX_C_SOURCE 200809L
#include <fenv.h>
#include <signal.h>
#include <string.h>
#include <sys/resource.h>
#include <sys/types.h>
#include <sys/wait.h>
#include <unistd.h>
#include <xmmintrin.h>

#include "check.h"

/* MXCSR: the state that a program starts in, all exceptions masked and nothing else; two parts of it that xmmintrin.h has no name for. */
enum { DEFAULT_STATE = 0x1f80, DENORMALS_ARE_ZERO = 0x40, EXCEPTIONS_SEEN = 0x3f };

static uint32_t bits(float x)
{
    uint32_t word;
    memcpy(&word, &x, sizeof word);
    return word;
}

/* A whole plan, built in the default state: a Patch, a Gain by `gain` and an Output. Its one sample is run in the given state of MXCSR. */
static uint32_t heard(float sample, float gain, unsigned state)
{
    static const uint32_t directory[] = {0, 0, 0, 1}, records[] = {MIXER_PATCH, 0, 0, 0, MIXER_GAIN, 0, 0, 1, 1, 1, MIXER_OUTPUT, 1, 1, 0};
    uint32_t indices[2], words[MIXER_NODE_WORDS], steps[14];
    float floats[MIXER_NODE_FLOATS], buffers[2], output = 7;
    mixer_plan p = mixer_buffers(mixer_new(1).plan, 2, indices, 2).plan;
    mixer_count_reply r;
    p = mixer_node(p, 5, &gain, 1, 0, 0, floats, MIXER_NODE_FLOATS, words, MIXER_NODE_WORDS).plan;
    p = mixer_step(p, records, 4, steps, 14).plan;
    p = mixer_step(p, records + 4, 6, steps, 14).plan;
    p = mixer_step(p, records + 10, 4, steps, 14).plan;
    ACCEPTED(mixer_finish(p, buffers, 2).status);
    _mm_setcsr(state);
    r = mixer_process(p, indices, 2, NULL, 0, floats, MIXER_NODE_FLOATS, words, MIXER_NODE_WORDS, steps, 14, buffers, 2, directory, 4, &sample, 1,
                      &output, 1);
    _mm_setcsr(DEFAULT_STATE);
    ACCEPTED(r.status);
    CHECK(r.count == 1);
    return bits(output);
}

static void flushed(void)
{
    CHECK(heard(1e-38f, 0.1f, DEFAULT_STATE) == 0x000ae398);
    CHECK(heard(1e-38f, 0.1f, DEFAULT_STATE | _MM_FLUSH_ZERO_ON) == 0);
    CHECK(heard(1e-40f, 1.0f, DEFAULT_STATE) == 0x000116c2);
    CHECK(heard(1e-40f, 1.0f, DEFAULT_STATE | DENORMALS_ARE_ZERO) == 0);
}

static void rounded(void)
{
    double left;
    CHECK(heard(0.3f, 0.1f, DEFAULT_STATE) == 0x3cf5c290);
    CHECK(heard(0.3f, 0.1f, DEFAULT_STATE | _MM_ROUND_UP) == 0x3cf5c291);
    CHECK(mixer_balance_gains(0.3).left == 0.7);
    fesetround(FE_UPWARD);
    left = mixer_balance_gains(0.3).left;
    fesetround(FE_TONEAREST);
    CHECK(left == 0.7 + 0x1p-53);
}

/* The signal that ends a process which calls with the given exceptions unmasked, 0 where it ends by itself. */
static int ended_by(unsigned unmasked)
{
    const struct rlimit no_core_file = {0, 0};
    int status = 0;
    pid_t child = fork();
    if (child == 0) {
        setrlimit(RLIMIT_CORE, &no_core_file);
        _mm_setcsr(DEFAULT_STATE & ~unmasked);
        _exit(mixer_balance_gains(0.3).status.number != MIXER_ACCEPTED);
    }
    CHECK(child > 0 && waitpid(child, &status, 0) == child);
    CHECK(WIFSIGNALED(status) || WEXITSTATUS(status) == 0);
    return WIFSIGNALED(status) ? WTERMSIG(status) : 0;
}

int main(void)
{
    CHECK((_mm_getcsr() & ~(unsigned)EXCEPTIONS_SEEN) == DEFAULT_STATE);
    flushed();
    rounded();
    CHECK(ended_by(0) == 0);
    CHECK(ended_by(_MM_MASK_INEXACT) == SIGFPE);
    return failures != 0;
}
