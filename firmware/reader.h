/* What the driver of a wireless reader answers by itself, before a frame comes to the core: applet selection, INS A4 of ISO 7816-4. The
 * core knows no applets and would say 6d00. Copy it, and add the applets that stand beside this one.
 */
#ifndef READER_H
#define READER_H

#include "brinecandle.h"

enum { READER_SELECT = 0xa4, READER_NO_SUCH_APPLET = 0x6a82 };

/* The response to a SELECT, at the front of `out`: `U2F_V2` and 9000 for the U2F applet, 6a82 for every other. BRINECANDLE_NO_ANSWER says that
 * the frame is none: it is for the core. After a SELECT nothing is left to fetch: brinecandle_panel_drop. */
static struct brinecandle_wrote reader_selected(const uint8_t *frame, size_t length, uint8_t *out, size_t out_length)
{
    static const uint8_t applet[8] = {0xa0, 0x00, 0x00, 0x06, 0x47, 0x2f, 0x00, 0x01};
    static const uint8_t version[6] = {'U', '2', 'F', '_', 'V', '2'};
    struct brinecandle_frame said = brinecandle_read(frame, length);
    if (said.answer != BRINECANDLE_OK || said.cla || said.ins != READER_SELECT)
        return (struct brinecandle_wrote){BRINECANDLE_NO_ANSWER, 0};
    bool is_ours = said.lc == sizeof applet;
    for (size_t i = 0; is_ours && i < sizeof applet; i++)
        is_ours = frame[said.start + i] == applet[i];
    return brinecandle_write_response(version, is_ours ? sizeof version : 0, is_ours ? BRINECANDLE_OK : READER_NO_SUCH_APPLET, out, out_length);
}

#endif
