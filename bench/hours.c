/* The hour program in C: one pass over the journal, one tally an hour, the hours of each hole marked. */
#include "text.h"

enum { ROOM = 65536, SPAN = 744, LAST_COUNT = 999999 };

struct tally {
    uint64_t sum;
    uint32_t doses;
    bool on, holed;
};

struct line { uint64_t hour, count, amount; };

static unsigned char in[ROOM + 2];
static struct tally hours[SPAN];

static void refuse(unsigned number, unsigned line)
{
    unsigned char *o = out;
    *o++ = 'R';
    o = put_field(o, number);
    o = put_field(o, line);
    *o++ = '\n';
    flush(o);
    _exit(0);
}

static size_t read_all(void)
{
    size_t n = 0;
    ssize_t got;
    while (n < ROOM + 1 && (got = read(0, in + n, ROOM + 1 - n)) > 0)
        n += got;
    return n;
}

/* The line at p, with a product or without; the place after its LF, or NULL. */
static inline const unsigned char *line_at(const unsigned char *p, bool products, struct line *l)
{
    uint64_t other;
    if (*p == 'H')
        return (p = field(p + 1, 9999999, &l->hour)) && *p == '\n' ? p + 1 : NULL;
    if (*p != 'D' || !(p = field(p + 1, 9999999, &l->hour)) || !(p = field(p, LAST_COUNT, &l->count)) ||
        !(p = field(p, 1800000, &l->amount)) || !(p = field(p, 1, &other)) || (products && !(p = field(p, 255, &other))))
        return NULL;
    return *p == '\n' ? p + 1 : NULL;
}

/* By one, 0 after 999,999; a 1 is always allowed. */
static inline bool follows(uint64_t before, uint64_t count)
{
    return count == 1 || count == (before == LAST_COUNT ? 0 : before + 1);
}

static unsigned char *put_bits(unsigned char *o, double number)
{
    uint64_t bits;
    unsigned char bytes[8];
    memcpy(&bits, &number, sizeof bits);
    bits = __builtin_bswap64(bits);
    memcpy(bytes, &bits, sizeof bytes);
    return put_bytes(o, bytes, sizeof bytes);
}

static unsigned char *put_hour(unsigned char *o, unsigned hour, const struct tally *t)
{
    o = put_number(room(o), hour);
    *o++ = '\t';
    if (t->holed || !t->on) {
        *o++ = 'X';
    } else if (!t->doses) {
        *o++ = 'I';
    } else {
        *o++ = 'M';
        o = put_field(o, t->doses);
        o = put_field(o, t->sum);
        *o++ = '\t';
        o = put_bits(o, (double)t->sum / t->doses);
    }
    *o++ = '\n';
    return o;
}

int main(void)
{
    size_t n = read_all();
    const unsigned char *p = in, *end = in + n;
    struct line l = { 0, 0, 0 };
    uint64_t first = 0, last = 0, dose_hour = 0, dose_count = 0;
    unsigned line = 0, before = 0;
    bool closed = false, dosed = false;
    unsigned char *o = out;
    if (n > ROOM)
        refuse(13, 0);
    if (n >= 4 && !memcmp(p, "V\t2\n", 4)) {
        p += 4;
        line = before = 1;
    }
    while (p < end) {
        bool dose = *p == 'D';
        line++;
        if (!(p = line_at(p, before, &l)))
            refuse(10, line);
        if (line == before + 1)
            first = last = l.hour;
        else if (l.hour < last || (closed && l.hour == last))
            refuse(11, line);
        if (l.hour - first >= SPAN)
            refuse(12, line);
        if (dose) {
            hours[l.hour - first].doses++;
            hours[l.hour - first].sum += l.amount;
            if (dosed && !follows(dose_count, l.count))
                for (uint64_t h = dose_hour; h <= l.hour; h++)
                    hours[h - first].holed = true;
            dosed = true;
            dose_hour = l.hour;
            dose_count = l.count;
        } else {
            hours[l.hour - first].on = true;
        }
        closed = !dose;
        last = l.hour;
    }
    make_hex();
    if (line > before)
        for (uint64_t h = first; h <= last; h++)
            o = put_hour(o, h, &hours[h - first]);
    flush(o);
    return 0;
}
