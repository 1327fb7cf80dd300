/* The calls T, L, S, C, Q, N, B and X of `replay` in C; any other letter is answered ?. */
#include "calls.h"

static inline unsigned char *answer(unsigned char *o, char letter)
{
    *o++ = letter;
    *o++ = '\n';
    return o;
}

static unsigned char *unknown(unsigned char *o)
{
    return answer(o, '?');
}

static unsigned char *refused(unsigned char *o, unsigned number)
{
    *o++ = 'R';
    o = put_field(o, number);
    *o++ = '\n';
    return o;
}

static unsigned char *bad_row(unsigned char *o, unsigned row)
{
    *o++ = 'R';
    o = put_field(o, 2);
    o = put_field(o, row);
    *o++ = '\n';
    return o;
}

static inline const unsigned char *on_tick(const unsigned char *p, unsigned char **to)
{
    int32_t sample;
    uint64_t inputs;
    unsigned char *o = *to;
    if (!(p = tick_at(p, &sample, &inputs)))
        return NULL;
    char kind = tick(&box, sample, inputs);
    *o++ = kind;
    switch (kind) {
    case 'O':
        o = put_field(o, box.outputs);
        break;
    case 'D':
        o = put_field(o, box.outputs);
        o = put_field(o, box.count);
        o = put_field(o, box.amount);
        o = put_field(o, box.settled);
        o = put_field(o, box.set[PRODUCT]);
        break;
    case 'F':
        o = put_field(o, box.fault);
        o = put_field(o, box.channel);
        break;
    case 'R':
        o = put_field(o, 1);
        break;
    }
    *o++ = '\n';
    *to = o;
    return p;
}

static const unsigned char *on_link(const unsigned char *p, unsigned char **o)
{
    uint64_t on;
    if (!(p = link_at(p, &on)))
        return NULL;
    box.link = on;
    *o = answer(*o, 'A');
    return p;
}

static const unsigned char *on_settings(const unsigned char *p, unsigned char **o)
{
    uint32_t set[SETTINGS], none[1];
    unsigned row;
    if (!(p = set_at(p, set, none, 0)))
        return NULL;
    if (box.phase != READY) {
        *o = refused(*o, 3);
    } else if ((row = bad_setting(set))) {
        *o = bad_row(*o, row);
    } else {
        take(&box, set);
        *o = answer(*o, 'A');
    }
    return p;
}

static const unsigned char *on_restart(const unsigned char *p, unsigned char **o)
{
    uint32_t set[SETTINGS], stored[2];
    unsigned row;
    if (!(p = set_at(p, set, stored, 2)))
        return NULL;
    if ((row = bad_setting(set))) {
        *o = bad_row(*o, row);
    } else if (stored[0] > 999999 || stored[1] > 999999999) {
        *o = refused(*o, 15);
    } else {
        restart(&box, set, stored[0], stored[1]);
        *o = answer(*o, 'A');
    }
    return p;
}

static const unsigned char *on_reset(const unsigned char *p, unsigned char **o)
{
    if (!(p = nothing_at(p)))
        return NULL;
    if (box.phase != READY) {
        *o = refused(*o, 3);
    } else {
        box.count = box.total = 0;
        *o = answer(*o, 'A');
    }
    return p;
}

static unsigned char *put_two(unsigned char *o, char letter, uint64_t first, uint64_t second)
{
    *o++ = letter;
    o = put_field(o, first);
    return put_field(o, second);
}

static const unsigned char *on_counters(const unsigned char *p, unsigned char **o)
{
    if (!(p = nothing_at(p)))
        return NULL;
    *o = put_two(*o, 'Q', box.count, box.total);
    *(*o)++ = '\n';
    return p;
}

static const unsigned char *on_frame(const unsigned char *p, unsigned char **to)
{
    static struct found found;
    unsigned char *o = *to;
    size_t n;
    if (!(p = frame_at(p, &n)))
        return NULL;
    read_frame(&found, bytes, n);
    if (!found.finished) {
        o = put_two(o, 'R', 9, found.place);
    } else if (bad_body(&found)) {
        o = put_two(o, 'R', 6, found.place);
    } else {
        o = put_two(o, 'P', found.place, found.len);
        *o++ = '\t';
        o = put_bytes(o, found.body, found.len);
    }
    *o++ = '\n';
    *to = o;
    return p;
}

static const unsigned char *on_request(const unsigned char *p, unsigned char **to)
{
    static unsigned char reply[64];
    static struct found found;
    unsigned char *o = *to;
    uint64_t room;
    size_t n, len;
    if (!(p = request_at(p, &n, &room)))
        return NULL;
    memset(reply, 0xA5, room);
    read_frame(&found, bytes, n);
    unsigned why = !found.finished ? 9 : bad_body(&found) ? 6 : request(&box, &found, room, reply, &len);
    if (why)
        o = put_two(o, 'R', why, found.place);
    else
        o = put_two(o, 'P', found.place, len);
    *o++ = '\t';
    o = put_bytes(o, reply, room);
    *o++ = '\n';
    *to = o;
    return p;
}

/* Answers the line at p; the place after it. */
static const unsigned char *answered(const unsigned char *p, unsigned char **o)
{
    const unsigned char *end = NULL;
    switch (*p) {
    case 'T': end = on_tick(p + 1, o); break;
    case 'L': end = on_link(p + 1, o); break;
    case 'S': end = on_settings(p + 1, o); break;
    case 'N': end = on_restart(p + 1, o); break;
    case 'C': end = on_reset(p + 1, o); break;
    case 'Q': end = on_counters(p + 1, o); break;
    case 'B': end = on_request(p + 1, o); break;
    case 'X': end = on_frame(p + 1, o); break;
    }
    if (!end) {
        *o = unknown(*o);
        end = rawmemchr(p, '\n');
    }
    return end + 1;
}

int main(void)
{
    make_table();
    make_hex();
    fresh();
    flush(each_line(out, answered, unknown));
    return 0;
}
