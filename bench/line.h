/* The line in C: the frame reader, which keeps the check byte up as the body grows, and the requests. */
#include "box.h"

struct found {
    bool finished;
    size_t place;                   /* the second closing FF; of no frame, where to offer the bytes again */
    unsigned len;
    unsigned char body[255], check;
};

static unsigned char table[256];    /* what a zero byte leaves of each state of the check */

static void make_table(void)
{
    for (int i = 0; i < 256; i++) {
        unsigned c = i;
        for (int bit = 0; bit < 8; bit++)
            c = c & 0x80 ? c << 1 ^ 0x69 : c << 1;
        table[i] = c;
    }
}

/* The first finished body; each byte is looked at once. */
static void read_frame(struct found *f, const unsigned char *s, size_t n)
{
    const unsigned char *p = s, *end = s + n, *lead;
    unsigned len, check;
    f->finished = false;
seek:
    if (!(p = memchr(p, 0xFF, end - p))) {
        f->place = n;
        return;
    }
    lead = p++;
    for (;; p++) {
        if (p == end) {
            f->place = lead - s;
            return;
        }
        if (*p == 0xFF)
            lead = p;
        else if (*p != 0xFE)
            break;
    }
begin:
    len = check = 0;
    while (p < end) {
        unsigned char b = *p++;
        if (b == 0xFF) {
            if (p == end)
                break;
            if (*p == 0xFF) {
                f->finished = true;
                f->place = p - s;
                f->len = len;
                f->check = check;
                return;
            }
            if (*p != 0xFE) {
                lead = p - 1;
                goto begin;
            }
            p++;
        }
        if (len == sizeof f->body)
            goto seek;
        f->body[len++] = b;
        check = table[check] ^ b;
    }
    f->place = lead - s;
}

/* A body under 3 bytes (6 if extended), or whose check is not 0. */
static bool bad_body(const struct found *f)
{
    return f->len < 3 || (f->body[0] == 0 && f->len < 6) || table[f->check] != 0;
}

static size_t stuff(unsigned char *frame, size_t n, unsigned char b)
{
    frame[n++] = b;
    if (b == 0xFF)
        frame[n++] = 0xFE;
    return n;
}

/* The frame of a body without its check, at most 64 bytes; its length. */
static size_t write_frame(unsigned char *frame, const unsigned char *body, unsigned len)
{
    unsigned char check = 0;
    size_t n = 0;
    frame[n++] = 0xFF;
    for (unsigned i = 0; i < len; i++) {
        n = stuff(frame, n, body[i]);
        check = table[check] ^ body[i];
    }
    n = stuff(frame, n, table[check]);
    frame[n++] = 0xFF;
    frame[n++] = 0xFF;
    return n;
}

static unsigned char bcd(uint32_t n)
{
    return n / 10 % 10 << 4 | n % 10;
}

/* Weight and CON by a filter; while no sample is held weight and both flags are 0. */
static void put_weight(const struct box *b, int filter, unsigned char *data)
{
    int32_t w = b->samples ? mean(b, filter) - b->z : 0;
    uint32_t size = w < 0 ? -w : w;
    bool over = w > (int32_t)b->set[CAPACITY] + 9;
    data[0] = bcd(size);
    data[1] = bcd(size / 100);
    data[2] = bcd(size / 10000);
    data[3] = (w < 0) << 7 | (b->samples && stable(b)) << 4 | over << 3 | b->set[POINT];
}

/* Why a C0 is refused, or 0. */
static unsigned no_zeroing(const struct box *b)
{
    int32_t level = b->set[LEVEL];
    if (b->phase != READY)
        return 3;
    if (b->set[ALGORITHM] > 1 || !b->samples)
        return 4;
    int32_t f = mean(b, FINELY);
    return -level < f && f < level ? 0 : 4;
}

/* A request: the number of its refusal, or 0 and the reply with its length. */
static unsigned request(struct box *b, const struct found *f, size_t room, unsigned char *reply, size_t *len)
{
    unsigned head = f->body[0] ? 1 : 4, size = head + 1, why;
    unsigned char body[9], frame[64], code = f->body[head];
    const unsigned char *a = f->body;
    if (head == 1 ? a[0] != b->set[ADDRESS] : (uint32_t)(a[1] | a[2] << 8 | a[3] << 16) != b->set[SERIAL])
        return 5;
    if (f->len != head + 2)
        return 7;
    memcpy(body, a, size);
    switch (code) {
    case 0xC0:
        if ((why = no_zeroing(b)))
            return why;
        break;
    case 0xC2: put_weight(b, COARSELY, body + size); size += 4; break;
    case 0xC3: put_weight(b, FINELY, body + size); size += 4; break;
    case 0xC4: body[size++] = b->inputs; break;
    case 0xC5: body[size++] = b->outputs; break;
    default: return 7;
    }
    size_t n = write_frame(frame, body, size);
    if (n > room)
        return 8;
    if (code == 0xC0)
        b->z = mean(b, FINELY);
    memcpy(reply, frame, *len = n);
    return 0;
}
