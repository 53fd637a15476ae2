/* For firmware/test: BRINECANDLE_REPLY and BRINECANDLE_SERVES with variables, narrow and wide, signed and not, each type beside each. It is
 * compiled as C and as C++, and a warning is an error: what compilers tell of a comparison depends on its types, and a firmware that is
 * built with -Werror must not break at its own. What is wanted is written without the macros, by sign and size, so that no type has a say
 * in it. It says how many pairs were served and refused; one that is not so is named by its types.
 */
#include <unistd.h>

#include "brinecandle.h"

/* firmware/build asks for -Wconversion too, which tells of the sign of every signed length; a firmware casts it */
#pragma GCC diagnostic ignored "-Wsign-conversion"

typedef signed char tiny;
typedef long long longest;

/* ---- the macros, each with variables of its types, which are lent as 64 bits */

#define REPLIES(X) X(tiny) X(short) X(int) X(long) X(longest) X(uint8_t) X(uint16_t) X(uint32_t) X(uint64_t) X(size_t)
#define CERTIFICATES(X, R)                                                                                                             \
    X(R, tiny) X(R, short) X(R, int) X(R, long) X(R, longest) X(R, uint8_t) X(R, uint16_t) X(R, uint32_t) X(R, uint64_t) X(R, size_t)

#define SERVES(R, C)                                                                                                                   \
    static bool serves_##R##_##C(uint64_t reply_bits, uint64_t certificate_bits)                                                       \
    {                                                                                                                                  \
        R reply = (R)reply_bits;                                                                                                       \
        C certificate = (C)certificate_bits;                                                                                           \
        return BRINECANDLE_SERVES(reply, certificate);                                                                                 \
    }
#define SERVES_OF(R) CERTIFICATES(SERVES, R)
REPLIES(SERVES_OF)

#define NEEDS(R, C)                                                                                                                    \
    static uint64_t needs_##C(uint64_t certificate_bits)                                                                               \
    {                                                                                                                                  \
        C certificate = (C)certificate_bits;                                                                                           \
        return BRINECANDLE_REPLY(certificate);                                                                                         \
    }
CERTIFICATES(NEEDS, none)

struct type {
    const char *name;
    unsigned width;
    bool is_signed;
};

struct pair {
    struct type reply, certificate;
    bool (*serves)(uint64_t, uint64_t);
    uint64_t (*needs)(uint64_t);
};

#define TYPE(T) {#T, 8 * sizeof(T), (T)-1 < (T)1}
#define PAIR(R, C) {TYPE(R), TYPE(C), serves_##R##_##C, needs_##C},
#define PAIR_OF(R) CERTIFICATES(PAIR, R)
static const struct pair pairs[] = {REPLIES(PAIR_OF)};

/* ---- lengths: those at which a type ends, or the line between served and refused lies */

struct length {
    bool negative;
    uint64_t size;
};

static const struct length lengths[] = {
    {true, (uint64_t)1 << 63}, {true, (uint64_t)1 << 31}, {true, 1000}, {true, 394}, {true, 1}, {false, 0}, {false, 1}, {false, 127},
    {false, 255}, {false, 393}, {false, 394}, {false, 395}, {false, 630}, {false, 631}, {false, 1024}, {false, 32373}, {false, 32374},
    {false, 32767}, {false, 65141}, {false, 65142}, {false, 65535}, {false, 2147483253}, {false, 2147483254}, {false, 2147483647},
    {false, 4294966901u}, {false, 4294966902u}, {false, 4294967295u}, {false, 9223372036854775413u}, {false, 9223372036854775414u},
    {false, 9223372036854775807u}, {false, SIZE_MAX - 395}, {false, SIZE_MAX - 394}, {false, SIZE_MAX - 393}, {false, SIZE_MAX - 1},
    {false, SIZE_MAX},
};

static bool fits(struct length n, struct type in)
{
    uint64_t most = UINT64_MAX >> (64 - in.width + (in.is_signed ? 1 : 0));
    return n.negative ? in.is_signed && n.size - 1 <= most : n.size <= most;
}

static uint64_t bits(struct length n)
{
    return n.negative ? 0 - n.size : n.size;
}

static bool is_served(struct length reply, struct length certificate)
{
    return !reply.negative && !certificate.negative && certificate.size <= reply.size && 394 <= reply.size - certificate.size;
}

/* What no buffer has is at least half of all numbers. */
static bool is_needed(struct length certificate, uint64_t said)
{
    if (certificate.negative)
        return said >> 63;
    return said == (SIZE_MAX - certificate.size < 394 ? SIZE_MAX : certificate.size + 394);
}

/* ---- each beside each */

static void put(const char *text)
{
    size_t length = 0;
    while (text[length])
        length++;
    if (write(STDOUT_FILENO, text, length) != (ssize_t)length)
        _exit(4);
}

static void put_number(uint64_t number)
{
    char digits[21] = {0};
    size_t at = sizeof digits - 1;
    do
        digits[--at] = (char)('0' + number % 10);
    while (number /= 10);
    put(digits + at);
}

static void put_length(struct type type, struct length n)
{
    put(type.name);
    put(n.negative ? " -" : " ");
    put_number(n.size);
}

static uint64_t served, refused;

static void try_pair(const struct pair *pair, struct length reply, struct length certificate)
{
    /* a negative certificate is taken for one that only a buffer which cannot be would serve */
    if (certificate.negative && !reply.negative && reply.size >> 63)
        return;
    bool serves = pair->serves(bits(reply), bits(certificate));
    if (serves != is_served(reply, certificate) || !is_needed(certificate, pair->needs(bits(certificate)))) {
        put("not so: a reply, ");
        put_length(pair->reply, reply);
        put(", and a certificate, ");
        put_length(pair->certificate, certificate);
        put("\n");
        _exit(3);
    }
    if (serves)
        served++;
    else
        refused++;
}

/* A constant beside a variable, and 0, of which gcc says in C what clang does not. */
static bool is_so_of_constants(size_t reply, uint8_t certificate)
{
    return BRINECANDLE_REPLY(0) == 394 && BRINECANDLE_SERVES(reply, 0) && !BRINECANDLE_SERVES(reply, 1)
           && !BRINECANDLE_SERVES(reply, SIZE_MAX) && BRINECANDLE_SERVES(649, certificate)
           && !BRINECANDLE_SERVES(648, certificate) && !BRINECANDLE_SERVES(394, certificate) && !BRINECANDLE_SERVES(0, certificate)
           && BRINECANDLE_SERVES(SIZE_MAX, certificate);
}

int main(void)
{
    if (!is_so_of_constants(394, 255)) {
        put("not so: constants\n");
        return 3;
    }
    enum { PAIRS = sizeof pairs / sizeof pairs[0], LENGTHS = sizeof lengths / sizeof lengths[0] };
    for (size_t i = 0; i < PAIRS; i++)
        for (size_t r = 0; r < LENGTHS; r++)
            for (size_t c = 0; c < LENGTHS; c++)
                if (fits(lengths[r], pairs[i].reply) && fits(lengths[c], pairs[i].certificate))
                    try_pair(&pairs[i], lengths[r], lengths[c]);
    put_number(served);
    put(" served, ");
    put_number(refused);
    put(" refused\n");
    return 0;
}
