/* A board for the first program of docs/FIRMWARE.md, so that .ci/package can run it: a clock that is set, a handle and a certificate of no
 * meaning, the longest that the program's buffers serve, and a host that asks for the version, enrols and logs in. Its exit status is 0, or
 * the number of the step that went wrong. */
#include "brinecandle_panel.h"

bool start(void);
bool press(void);
size_t answer(const uint8_t *frame, size_t length);

enum { HANDLE = 255, CERTIFICATE = 630, SIGNATURE = 72 };

static uint64_t now = 1000;
static uint32_t counter = 7;
static uint8_t handle[HANDLE], certificate[CERTIFICATE + 1], x[32], y[32];
static size_t certificate_length = CERTIFICATE + 1;
static size_t signed_bytes;
static enum brinecandle_kind signed_by;
static bool is_broken;

uint64_t now_ms(void)
{
    return now;
}

void lend(struct brinecandle_lent *lent)
{
    lent->hardware = (struct brinecandle_hardware){BRINECANDLE_YES, BRINECANDLE_YES, BRINECANDLE_YES,
                                                   BRINECANDLE_YES, BRINECANDLE_YES, counter};
    lent->handle = handle;
    lent->handle_length = sizeof handle;
    lent->certificate = certificate;
    lent->certificate_length = certificate_length;
    lent->x = x;
    lent->y = y;
}

bool is_written_down(uint32_t used)
{
    counter = used + 1;
    return true;
}

size_t sign(enum brinecandle_kind key, const uint8_t *bytes, size_t length, uint8_t signature[72])
{
    (void)bytes;
    signed_by = key;
    signed_bytes = length;
    for (int i = 0; i < SIGNATURE; i++)
        signature[i] = 0;
    return is_broken ? 0 : SIGNATURE;
}

/* Register in shape 7; Authenticate with P1 03, in shape 7; Version in shape 8. */
static uint8_t enrol[7 + 64 + 2] = {0, 1, 0, 0, 0, 0, 64};
static uint8_t login[7 + 65 + HANDLE + 2] = {0, 2, 3, 0, 0, (65 + HANDLE) >> 8, (65 + HANDLE) & 255, [7 + 64] = HANDLE};
static uint8_t version[7] = {0, 3, 0, 0, 0, 0, 0};

int main(void)
{
    if (answer(version, sizeof version) != 2) /* no record yet: R6, and the host gets 6f00 */
        return 1;
    if (!start() || answer(version, sizeof version) != 6 + 2)
        return 2;
    if (press() || answer(enrol, sizeof enrol) != 2 || press()) /* nobody asked; a byte too long, R2: 6f00, and no prompt */
        return 3;
    certificate_length = CERTIFICATE;
    if (answer(enrol, sizeof enrol) != 2) /* 6985 */
        return 4;
    now += 500;
    certificate_length = CERTIFICATE + 1;
    if (!press() || answer(enrol, sizeof enrol) != 2) /* R2 again, and the touch is kept */
        return 5;
    certificate_length = CERTIFICATE;
    if (answer(enrol, sizeof enrol) != 67 + HANDLE + CERTIFICATE + SIGNATURE + 2)
        return 6;
    if (signed_by != BRINECANDLE_KIND_REGISTER || signed_bytes != 130 + HANDLE || counter != 7)
        return 7;
    now += 500;
    if (answer(login, sizeof login) != 2 || !press() || answer(login, sizeof login) != 5 + SIGNATURE + 2)
        return 8;
    if (signed_by != BRINECANDLE_KIND_AUTHENTICATE || signed_bytes != 69 || counter != 8)
        return 9;
    is_broken = true;
    if (answer(login, sizeof login) != 2 || !press() || answer(login, sizeof login) != 2 || counter != 9) /* 6f00 */
        return 10;
    now = 0;
    return answer(version, sizeof version) == 2 ? 0 : 11; /* the clock went back: R1, and the host gets 6f00 */
}
