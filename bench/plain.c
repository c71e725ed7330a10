// The two calls as a C programmer would write them, with nothing proved.
#include "line.h"
#include <stdbool.h>

enum kind { REQ_SLOTS = 1, SLOTS = 2, TOKEN = 3, ACK = 4 };

#define LAST_CLOCK 0x0fffffffu

static uint32_t word(uint32_t kind, uint64_t value) {
    return kind << 28 | (uint32_t)value;
}

static bool fits(const struct line_frame *f) {
    if (f->sender > 255 || f->addressee > 255 || f->s > LAST_CLOCK) {
        return false;
    }
    switch (f->kind) {
    case REQ_SLOTS:
        return f->n <= LAST_CLOCK && f->l <= LAST_CLOCK;
    case SLOTS:
        return f->r <= LAST_CLOCK && f->n <= LAST_CLOCK;
    default:
        return f->r <= LAST_CLOCK;
    }
}

int64_t plain_write_line(const struct line_frame *f, uint32_t *run, size_t room) {
    if (f->kind < REQ_SLOTS || f->kind > ACK) {
        return -13;
    }
    size_t count = f->kind == ACK ? 3 : 4;
    if (!fits(f)) {
        return -18;
    }
    if (room < count) {
        return -19;
    }
    if (f->kind == TOKEN && (f->place > 1023 || f->step < -32768 || f->step > 32767)) {
        return -20;
    }
    run[0] = word(f->kind, f->sender << 20 | f->addressee << 12 | (uint32_t)(count - 1));
    run[1] = word(8, f->s);
    switch (f->kind) {
    case REQ_SLOTS:
        run[2] = word(10, f->n);
        run[3] = word(11, f->l);
        break;
    case SLOTS:
        run[2] = word(9, f->r);
        run[3] = word(10, f->n);
        break;
    case TOKEN:
        run[2] = word(9, f->r);
        run[3] = word(12, f->place << 16 | (uint32_t)(f->step + 32768));
        break;
    case ACK:
        run[2] = word(9, f->r);
        break;
    }
    return (int64_t)count;
}

static bool is(uint32_t w, uint32_t kind) {
    return w >> 28 == kind;
}

static uint32_t value(uint32_t w) {
    return w & LAST_CLOCK;
}

// The refusal of a run that a head of that kind begins, or 0.
static int64_t refusal(const uint32_t *run, size_t room, uint32_t kind, size_t count) {
    uint32_t third = kind == REQ_SLOTS ? 10 : 9;
    uint32_t fourth = kind == REQ_SLOTS ? 11 : kind == SLOTS ? 10 : 12;
    if ((run[0] & 0xfff) != count - 1) {
        return -14;
    }
    if (room < count) {
        return -15;
    }
    if (!is(run[1], 8) || !is(run[2], third) || (kind != ACK && !is(run[3], fourth))) {
        return -16;
    }
    if (kind == TOKEN && value(run[3]) >> 16 > 1023) {
        return -17;
    }
    return 0;
}

int64_t plain_read_line(const uint32_t *run, size_t room, struct line_frame *f) {
    if (room == 0) {
        return -12;
    }
    uint32_t kind = run[0] >> 28;
    if (kind < REQ_SLOTS || kind > ACK) {
        return -13;
    }
    size_t count = kind == ACK ? 3 : 4;
    int64_t no = refusal(run, room, kind, count);
    if (no != 0) {
        return no;
    }
    *f = (struct line_frame){.kind = kind, .sender = run[0] >> 20 & 0xff, .addressee = run[0] >> 12 & 0xff, .s = value(run[1])};
    switch (kind) {
    case REQ_SLOTS:
        f->n = value(run[2]);
        f->l = value(run[3]);
        break;
    case SLOTS:
        f->r = value(run[2]);
        f->n = value(run[3]);
        break;
    case TOKEN:
        f->r = value(run[2]);
        f->place = value(run[3]) >> 16;
        f->step = (int32_t)(run[3] & 0xffff) - 32768;
        break;
    case ACK:
        f->r = value(run[2]);
        break;
    }
    return (int64_t)count;
}
