/* What the C tests share: each counts what is not as it should be, and says where. */
#ifndef CHECK_H
#define CHECK_H

#include <stdio.h>

#include "mixer.h"

static int failures;

static bool is_status(mixer_status s, uint32_t number, uint32_t place)
{
    return s.number == number && s.place == place;
}

#define CHECK(c) ((c) ? (void)0 : (void)(failures++, printf("%s:%d: not so: %s\n", __FILE__, __LINE__, #c)))

/* The status may be that of a call, which is then made once. */
#define REFUSED(s, n, p) CHECK(is_status(s, n, p))
#define ACCEPTED(s) REFUSED(s, MIXER_ACCEPTED, 0)

#endif
