/* Text in and out for the C programs: blocks read and written whole, numbers and bytes by tables. */
#define _GNU_SOURCE
#include <stdbool.h>
#include <stddef.h>
#include <stdint.h>
#include <string.h>
#include <unistd.h>

enum { BLOCK = 65536, LONGEST = 4096, ANSWER = 1024 };

static unsigned char out[BLOCK];

/* Writes what stands before o; the place to go on at. */
static unsigned char *flush(unsigned char *o)
{
    for (unsigned char *p = out; p < o;) {
        ssize_t n = write(1, p, o - p);
        if (n <= 0)
            _exit(1);
        p += n;
    }
    return out;
}

/* Room for one more answer. */
static inline unsigned char *room(unsigned char *o)
{
    return o > out + sizeof out - ANSWER ? flush(o) : o;
}

static unsigned digits_of(uint64_t n)
{
    for (unsigned k = 1;; n /= 10000, k += 4) {
        if (n < 10)
            return k;
        if (n < 100)
            return k + 1;
        if (n < 1000)
            return k + 2;
        if (n < 10000)
            return k + 3;
    }
}

/* A number, two digits at a time, the last first. */
static unsigned char *put_number(unsigned char *o, uint64_t n)
{
    static const char pairs[] =
        "00010203040506070809101112131415161718192021222324252627282930313233343536373839404142434445464748495051525354555657585960616263646566676869707172737475767778798081828384858687888990919293949596979899";
    unsigned char *end = o + digits_of(n), *p = end;
    while (n >= 100) {
        p -= 2;
        memcpy(p, pairs + 2 * (n % 100), 2);
        n /= 100;
    }
    if (n >= 10)
        memcpy(p - 2, pairs + 2 * n, 2);
    else
        p[-1] = '0' + n;
    return end;
}

static unsigned char *put_field(unsigned char *o, uint64_t n)
{
    *o++ = '\t';
    if (n < 10) {
        *o++ = '0' + n;
        return o;
    }
    return put_number(o, n);
}

static char hex[256][2];            /* the two digits of each byte */
static signed char value_of[256];   /* of an upper-case hexadecimal digit, else -1 */

static void make_hex(void)
{
    static const char digit[] = "0123456789ABCDEF";
    memset(value_of, -1, sizeof value_of);
    for (int i = 0; i < 16; i++)
        value_of[(unsigned char)digit[i]] = i;
    for (int i = 0; i < 256; i++) {
        hex[i][0] = digit[i >> 4];
        hex[i][1] = digit[i & 15];
    }
}

/* Bytes, two digits a byte. */
static inline unsigned char *put_bytes(unsigned char *o, const unsigned char *bytes, size_t n)
{
    for (size_t i = 0; i < n; i++, o += 2)
        memcpy(o, hex[bytes[i]], 2);
    return o;
}

/* A number without leading zeros, at most `most`; the place after it, or NULL. Ten digits are enough for every `most`. */
static inline const unsigned char *number(const unsigned char *p, uint64_t most, uint64_t *value)
{
    const unsigned char *start = p;
    uint64_t v = (uint64_t)*p++ - '0', d;
    if (v > 9)
        return NULL;
    if (v)
        while ((d = (uint64_t)*p - '0') < 10) {
            v = 10 * v + d;
            p++;
        }
    *value = v;
    return v > most || p - start > 10 ? NULL : p;
}

/* A tab and a number. */
static inline const unsigned char *field(const unsigned char *p, uint64_t most, uint64_t *value)
{
    return *p == '\t' ? number(p + 1, most, value) : NULL;
}
