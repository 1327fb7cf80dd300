/* Lines of `replay` read in one pass, and a loop over the lines of standard input. */
#include "text.h"
#include "line.h"

static struct box box;

static void fresh(void)
{
    static const uint32_t set[SETTINGS] = { [CAPACITY] = 10000, [DOSE] = 100, [LEVEL] = 100, [P7] = 4, [P8] = 4, [P9] = 1, [ADDRESS] = 1 };
    restart(&box, set, 0, 0);
}

/* T: sample and inputs. Each reader answers the place of the line's LF, or NULL where the line is no call. */
static inline const unsigned char *tick_at(const unsigned char *p, int32_t *sample, uint64_t *inputs)
{
    uint64_t v;
    if (*p++ != '\t')
        return NULL;
    bool negative = *p == '-';
    if (!(p = number(p + negative, INT32_MAX + (uint64_t)negative, &v)) || (negative && !v))
        return NULL;
    *sample = negative ? -(int64_t)v : (int64_t)v;
    return (p = field(p, 255, inputs)) && *p == '\n' ? p : NULL;
}

/* S and N: the 17 settings, the product where it is there, and so many numbers behind it. */
static const unsigned char *set_at(const unsigned char *p, uint32_t *set, uint32_t *behind, int n)
{
    uint64_t v;
    int k = 0;
    uint32_t got[SETTINGS + 2];
    for (; k < SETTINGS + n && *p != '\n'; k++) {
        if (!(p = field(p, UINT32_MAX, &v)))
            return NULL;
        got[k] = v;
    }
    if (*p != '\n' || k < SETTINGS + n - 1)
        return NULL;
    memcpy(set, got, SETTINGS * sizeof *set);
    if (k == SETTINGS + n - 1)
        set[PRODUCT] = 0;
    memcpy(behind, got + k - n, n * sizeof *behind);
    return p;
}

static const unsigned char *link_at(const unsigned char *p, uint64_t *on)
{
    return (p = field(p, 1, on)) && *p == '\n' ? p : NULL;
}

static const unsigned char *nothing_at(const unsigned char *p)
{
    return *p == '\n' ? p : NULL;
}

/* A tab and bytes; the place behind them. */
static inline const unsigned char *bytes_at(const unsigned char *p, unsigned char *bytes, size_t *n)
{
    unsigned char *b = bytes;
    if (*p++ != '\t')
        return NULL;
    for (; *p != '\t' && *p != '\n'; p += 2) {
        int high = value_of[p[0]], low = value_of[p[1]];
        if ((high | low) < 0)
            return NULL;
        *b++ = high << 4 | low;
    }
    *n = b - bytes;
    return p;
}

static unsigned char bytes[BLOCK / 2];  /* of a line; they fit, and a line over 4,096 bytes is no call */

/* X: bytes. */
static const unsigned char *frame_at(const unsigned char *line, size_t *n)
{
    const unsigned char *p = bytes_at(line, bytes, n);
    return p && *p == '\n' && p - line < LONGEST - 1 ? p : NULL;
}

/* B: bytes and the room of a buffer. */
static const unsigned char *request_at(const unsigned char *line, size_t *n, uint64_t *room)
{
    const unsigned char *p = bytes_at(line, bytes, n);
    return p && (p = field(p, 64, room)) && *p == '\n' && p - line < LONGEST - 1 ? p : NULL;
}

/* Takes each line of standard input, which has its LF, with what `taken` makes of it; `too_long` stands for one over 4,096 bytes. */
static inline unsigned char *each_line(unsigned char *o, const unsigned char *(*taken)(const unsigned char *, unsigned char **),
                                       unsigned char *(*too_long)(unsigned char *))
{
    static unsigned char in[BLOCK];
    size_t held = 0;
    ssize_t got;
    bool longer = false;
    while ((got = read(0, in + held, BLOCK - held)) > 0) {
        const unsigned char *p = in, *end = in + held + got;
        const unsigned char *last = memrchr(in, '\n', end - in);
        if (last && longer) {
            o = too_long(room(o));
            p = (unsigned char *)memchr(p, '\n', end - p) + 1;
            longer = false;
        }
        while (last && p <= last) {
            o = room(o);
            p = taken(p, &o);
        }
        held = end - p;
        if (held > LONGEST - 1) {
            longer = true;
            held = 0;
        }
        memmove(in, p, held);
    }
    return o;
}
