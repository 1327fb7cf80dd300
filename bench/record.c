/* `record` in C: the hour of the first tick, then the calls T, L, S, C, Q, N, B and X; any other letter is no call. */
#include "calls.h"

enum { TICKS = 450000, LAST_HOUR = 9999999 };

static uint64_t hour;               /* of the next counted tick */
static uint32_t ticks;              /* of that hour */
static bool begun, over;            /* the first line was read; nothing more is printed */
static bool whole = true;           /* nothing of the hour was missed */
static bool known = true;           /* no line that is no call came since the last accepted restart */

static unsigned char *refuse(unsigned char *o, char line)
{
    over = true;
    memcpy(o, "R\t10\t", 5);
    o[5] = line;
    o[6] = '\n';
    return o + 7;
}

static unsigned char *put_dose(unsigned char *o)
{
    *o++ = 'D';
    o = put_field(o, hour);
    o = put_field(o, box.count);
    o = put_field(o, box.amount);
    o = put_field(o, box.settled);
    o = put_field(o, box.set[PRODUCT]);
    *o++ = '\n';
    return o;
}

static unsigned char *end_hour(unsigned char *o)
{
    if (whole && known) {
        *o++ = 'H';
        o = put_field(o, hour);
        *o++ = '\n';
    }
    hour++;
    ticks = 0;
    whole = true;
    return o;
}

static inline const unsigned char *on_tick(const unsigned char *p, unsigned char **o)
{
    int32_t sample;
    uint64_t inputs;
    if (!(p = tick_at(p, &sample, &inputs)))
        return NULL;
    char kind = tick(&box, sample, inputs);
    if (kind == 'R')
        return p;
    if (hour > LAST_HOUR) {
        *o = refuse(*o, '0');
        return p;
    }
    if (kind == 'D')
        *o = put_dose(*o);
    if (++ticks == TICKS)
        *o = end_hour(*o);
    return p;
}

static const unsigned char *on_restart(const unsigned char *p)
{
    uint32_t set[SETTINGS], stored[2];
    if (!(p = set_at(p, set, stored, 2)))
        return NULL;
    if (!bad_setting(set) && stored[0] <= 999999 && stored[1] <= 999999999) {
        restart(&box, set, stored[0], stored[1]);
        known = true;
        if (ticks)
            whole = false;
    }
    return p;
}

static const unsigned char *on_settings(const unsigned char *p)
{
    uint32_t set[SETTINGS], none[1];
    if ((p = set_at(p, set, none, 0)) && box.phase == READY && !bad_setting(set))
        take(&box, set);
    return p;
}

static const unsigned char *on_reset(const unsigned char *p)
{
    if ((p = nothing_at(p)) && box.phase == READY)
        box.count = box.total = 0;
    return p;
}

static const unsigned char *on_link(const unsigned char *p)
{
    uint64_t on;
    if ((p = link_at(p, &on)))
        box.link = on;
    return p;
}

static const unsigned char *on_request(const unsigned char *p)
{
    static unsigned char reply[64];
    static struct found found;
    uint64_t room;
    size_t n, len;
    if (!(p = request_at(p, &n, &room)))
        return NULL;
    read_frame(&found, bytes, n);
    if (found.finished && !bad_body(&found))
        request(&box, &found, room, reply, &len);
    return p;
}

static const unsigned char *on_frame(const unsigned char *p)
{
    size_t n;
    return frame_at(p, &n);
}

static const unsigned char *first_line(const unsigned char *p, unsigned char **o)
{
    begun = true;
    if ((p = number(p, LAST_HOUR, &hour)) && *p == '\n') {
        memcpy(*o, "V\t2\n", 4);
        *o += 4;
    } else {
        *o = refuse(*o, '1');
    }
    return p;
}

static unsigned char *lost(unsigned char *o)
{
    if (!begun) {
        begun = true;
        return refuse(o, '1');
    }
    whole = known = false;
    return o;
}

/* Notes the line at p; the place after it. */
static const unsigned char *noted(const unsigned char *p, unsigned char **o)
{
    const unsigned char *end = NULL;
    if (over)
        return (unsigned char *)rawmemchr(p, '\n') + 1;
    if (!begun) {
        first_line(p, o);
        return (unsigned char *)rawmemchr(p, '\n') + 1;
    }
    switch (*p) {
    case 'T': end = on_tick(p + 1, o); break;
    case 'L': end = on_link(p + 1); break;
    case 'S': end = on_settings(p + 1); break;
    case 'N': end = on_restart(p + 1); break;
    case 'C': end = on_reset(p + 1); break;
    case 'Q': end = nothing_at(p + 1); break;
    case 'B': end = on_request(p + 1); break;
    case 'X': end = on_frame(p + 1); break;
    }
    if (!end) {
        *o = lost(*o);
        end = rawmemchr(p, '\n');
    }
    return end + 1;
}

int main(void)
{
    make_table();
    make_hex();
    fresh();
    flush(each_line(out, noted, lost));
    return 0;
}
