/* The box in C, from documents 01 and 02: settings, restart, one tick, the counters. */
#include <stdbool.h>
#include <stdint.h>
#include <string.h>

enum { SETTINGS = 18, PLACES = 128 };
enum { ALGORITHM, CAPACITY, DOSE, PC, PF, LEVEL, P7, P8, P9, P11, O, IN1, IN2, IN3, ADDRESS, SERIAL, POINT, PRODUCT };
enum { COARSELY, FINELY };          /* the filters p7 and p8 */

enum phase { READY, COARSE, FINE, HOLD, SETTLE, DISCHARGE, LOAD, CALM, DOSE_COARSE, DOSE_FINE, DOSE_SETTLE, FAULT };

/* The samples that may still be the largest of a window, largest first, with their numbers: each one is put in once and
   taken out once. Both filters share the queue; each has its own first, and the number of the sample that puts it out. */
struct queue {
    struct { int32_t value; uint32_t number; } at[PLACES];
    uint32_t end, first[2], until[2];
};

struct box {
    uint32_t set[SETTINGS];
    int32_t ring[PLACES];           /* the last samples, by their number; 0 where there is none yet */
    uint64_t samples;               /* how many came since the filter was emptied */
    int32_t sum[2];                 /* of the last p7 and of the last p8; 128 samples of 900,000 fit an int */
    struct queue high, low;         /* `low` has the samples with their signs turned */
    int32_t f, z, w;
    uint32_t calm, settling;        /* S, and the number of the tick in Settle or Calm */
    uint8_t runs[4], expected;      /* of three channels; the inputs 1 to 3 expected with all outputs closed */
    enum phase phase;
    int32_t w0, ws;                 /* w0 is wH in AL2 and AL3 */
    bool link, settled;
    uint8_t inputs, outputs;
    uint8_t fault, channel;
    uint32_t count, total, amount;
};

static const uint32_t least[SETTINGS] = { 0, 1, 1, 0, 0, 1, 4, 4, 1, 0, 0, 0, 0, 0, 1, 0, 0, 0 };
static const uint32_t greatest[SETTINGS] = { 3, 99999, 99999, 99999, 99999, 99999, 128, 128, 63, 1, 1, 1, 1, 1, 127, 16777215, 3, 255 };

/* The number of the first bad setting, from 1; 0 where all are good. */
static unsigned bad_setting(const uint32_t *set)
{
    for (int i = 0; i < SETTINGS; i++) {
        uint32_t low = least[i], high = greatest[i];
        switch (i) {
        case DOSE: high = set[CAPACITY]; break;
        case PC: high = set[DOSE]; break;
        case PF: high = set[PC]; break;
        case LEVEL:
            if (set[ALGORITHM] < 2)
                high = set[CAPACITY] / 4;
            else
                low = set[DOSE], high = set[CAPACITY];
            break;
        case P8: low = set[P7]; break;
        }
        if (set[i] < low || set[i] > high)
            return i + 1;
    }
    return 0;
}

static void empty(struct queue *q)
{
    q->end = q->first[COARSELY] = q->first[FINELY] = 0;
    q->until[COARSELY] = q->until[FINELY] = UINT32_MAX;
}

/* A set is taken: the filter is emptied, Z is 0, the runs are cleared. */
static void take(struct box *b, const uint32_t *set)
{
    memcpy(b->set, set, sizeof b->set);
    memset(b->ring, 0, sizeof b->ring);
    b->samples = 0;
    b->sum[COARSELY] = b->sum[FINELY] = 0;
    empty(&b->high);
    empty(&b->low);
    b->f = b->z = 0;
    b->calm = 0;
    memset(b->runs, 0, sizeof b->runs);
    b->expected = ~(set[IN1] | set[IN2] << 1 | set[IN3] << 2) & 7;
}

static void restart(struct box *b, const uint32_t *set, uint32_t count, uint32_t total)
{
    memset(b, 0, sizeof *b);
    take(b, set);
    b->count = count;
    b->total = total;
}

/* The first of a filter's window is put out. */
static void drop(struct queue *q, int filter, const uint32_t *set)
{
    q->until[filter] = q->at[++q->first[filter] % PLACES].number + set[P7 + filter];
}

/* One sample more; what each window has lost goes first. */
static inline void enqueue(struct queue *q, int32_t value, uint32_t number, const uint32_t *set)
{
    if (number == q->until[FINELY])
        drop(q, FINELY, set);
    if (number == q->until[COARSELY])
        drop(q, COARSELY, set);
    uint32_t end = q->end, first = q->first[FINELY];
    while (end != first && q->at[(end - 1) % PLACES].value <= value)
        end--;
    q->at[end % PLACES].value = value;
    q->at[end % PLACES].number = number;
    q->end = end + 1;
    if (end == first)
        q->until[FINELY] = number + set[P8];
    if ((int32_t)(end - q->first[COARSELY]) <= 0) {
        q->first[COARSELY] = end;
        q->until[COARSELY] = number + set[P7];
    }
}

static inline void keep(struct box *b, int32_t sample)
{
    uint32_t number = b->samples++;
    b->sum[COARSELY] += sample - b->ring[(number - b->set[P7]) % PLACES];
    b->sum[FINELY] += sample - b->ring[(number - b->set[P8]) % PLACES];
    b->ring[number % PLACES] = sample;
    enqueue(&b->high, sample, number, b->set);
    enqueue(&b->low, -sample, number, b->set);
}

/* The mean of a filter's samples, of four or more without one largest and one smallest; a half away from zero. */
static inline int32_t mean(const struct box *b, int filter)
{
    int32_t n = b->samples < b->set[P7 + filter] ? b->samples : b->set[P7 + filter];
    int32_t s = b->sum[filter];
    if (n >= 4) {
        s -= b->high.at[b->high.first[filter] % PLACES].value - b->low.at[b->low.first[filter] % PLACES].value;
        n -= 2;
    }
    int32_t half = n / 2;
    return (s < 0 ? s - half : s + half) / n;
}

/* The lowest channel whose run of mismatches reached 64, else 0. */
static unsigned mismatch(struct box *b)
{
    unsigned wrong = (b->inputs ^ b->outputs ^ b->expected) & 7, lowest = 0;
    if (!wrong) {
        memset(b->runs, 0, sizeof b->runs);
        return 0;
    }
    for (int i = 2; i >= 0; i--) {
        b->runs[i] = wrong >> i & 1 ? b->runs[i] + 1 : 0;
        if (b->runs[i] == 64)
            lowest = i + 1;
    }
    return lowest;
}

static char fail(struct box *b, uint8_t fault, uint8_t channel)
{
    b->phase = FAULT;
    b->outputs = 8;
    b->fault = fault;
    b->channel = channel;
    return 'F';
}

static void go(struct box *b, enum phase phase, uint8_t gates)
{
    b->phase = phase;
    b->outputs = gates;
}

static char complete(struct box *b, int32_t amount, bool settled)
{
    b->amount = amount < 0 ? 0 : amount;
    b->settled = settled;
    b->count = (b->count + 1) % 1000000;
    b->total = (b->total + b->amount) % 1000000000;
    go(b, READY, 0);
    return 'D';
}

static bool stable(const struct box *b)
{
    return b->calm >= 64 * b->set[P9];
}

static bool settle_ends(struct box *b)
{
    return ++b->settling >= 256 * b->set[P9] || stable(b);
}

static void settle(struct box *b, enum phase phase)
{
    go(b, phase, 0);
    b->settling = 0;
}

/* Fill (x is w) and Dose (x is wH-w): the coarse and the fine stage. */
static void stage(struct box *b, int32_t x, bool coarse, bool dosing)
{
    int32_t wf = b->set[DOSE] - b->set[PF], wc = b->set[DOSE] - b->set[PC];
    if (x >= wf)
        settle(b, dosing ? DOSE_SETTLE : b->set[ALGORITHM] ? SETTLE : HOLD);
    else if (!coarse || x >= wc)
        go(b, dosing ? DOSE_FINE : FINE, 2);
    else
        go(b, dosing ? DOSE_COARSE : COARSE, dosing || b->set[O] ? 3 : 1);
}

static void ready(struct box *b, bool start)
{
    if (b->set[ALGORITHM] < 2) {
        int32_t level = b->set[LEVEL];
        if (!start)
            return;
        if (-level < b->f && b->f < level) {
            b->z = b->f;
            b->w = 0;
        }
        b->w0 = b->w;
        stage(b, b->w, true, false);
    } else if (b->set[ALGORITHM] == 3 && !start) {
        return;
    } else if (b->w < (int32_t)b->set[DOSE]) {
        go(b, LOAD, 4);
    } else if (start) {
        b->w0 = b->w;
        stage(b, 0, true, true);
    }
}

/* The phase rule; 'D' where a dose completed. */
static char phase_rule(struct box *b, bool start)
{
    switch (b->phase) {
    case READY:
        ready(b, start);
        break;
    case COARSE:
    case FINE:
        if (!b->set[ALGORITHM] && !start)
            go(b, READY, 0);
        else
            stage(b, b->w, b->phase == COARSE, false);
        break;
    case HOLD:
        if (!start)
            go(b, READY, 0);
        break;
    case SETTLE:
        if (settle_ends(b)) {
            b->ws = b->w;
            b->settled = stable(b);
            go(b, DISCHARGE, 4);
        }
        break;
    case DISCHARGE:
        if (b->w < (int32_t)b->set[LEVEL])
            return complete(b, b->ws - (b->set[P11] ? b->w0 : b->w), b->settled);
        break;
    case LOAD:
        if (b->w >= (int32_t)b->set[LEVEL])
            settle(b, CALM);
        break;
    case CALM:
        if (settle_ends(b))
            go(b, READY, 0);
        break;
    case DOSE_COARSE:
    case DOSE_FINE:
        stage(b, b->w0 - b->w, b->phase == DOSE_COARSE, true);
        break;
    case DOSE_SETTLE:
        if (settle_ends(b))
            return complete(b, b->w0 - b->w, stable(b));
        break;
    case FAULT:
        break;
    }
    return 'O';
}

/* One tick: 'O', 'D', 'F' or 'R'. */
static inline char tick(struct box *b, int32_t sample, uint32_t inputs)
{
    if (inputs > 15)
        return 'R';
    if (b->phase == FAULT)
        return 'F';
    b->inputs = inputs;
    if (sample < -900000 || sample > 900000)
        return fail(b, 21, 0);
    bool first = !b->samples;
    keep(b, sample);
    int32_t f = mean(b, b->outputs & 1 ? COARSELY : FINELY);
    if (first || f != b->f)
        b->calm = 0;
    else if (b->calm < 4032)
        b->calm++;
    b->f = f;
    b->w = f - b->z;
    if (b->set[ALGORITHM]) {
        unsigned channel = mismatch(b);
        if (channel)
            return fail(b, 14, channel);
    }
    uint8_t before = b->outputs & 7;
    b->outputs = before;
    char answer = phase_rule(b, b->link || (b->set[ALGORITHM] < 3 && inputs & 8));
    if (b->outputs != before)
        b->calm = 0;
    if (b->w > (int32_t)b->set[CAPACITY] + 9)
        b->outputs |= 8;
    return answer;
}
