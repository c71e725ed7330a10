// Writes and reads ten million frames by the proved calls and by the plain ones, and compares what they say and what they take.
#define _POSIX_C_SOURCE 200809L
#include "line.h"
#include <stdio.h>
#include <stdlib.h>
#include <string.h>
#include <time.h>

enum { BATCH = 1000, BATCHES = 10000, ROUNDS = 3, ROOM = 4 };

// One way of writing and reading, with what it last gave for a batch and how long it took over all.
struct way {
    write_line *write;
    read_line *read;
    uint32_t runs[BATCH][ROOM];
    int64_t wrote[BATCH];
    struct line_frame back[BATCH];
    int64_t took[BATCH];
    double write_ns;
    double read_ns;
};

static struct line_frame frames[BATCH];
static struct way proved = {.write = keyvurram_write_line, .read = keyvurram_read_line};
static struct way plain = {.write = plain_write_line, .read = plain_read_line};

static uint64_t seed;

// The next number of a fixed row that looks random (splitmix64).
static uint64_t next(void) {
    uint64_t z = seed += 0x9e3779b97f4a7c15u;
    z = (z ^ z >> 30) * 0xbf58476d1ce4e5b9u;
    z = (z ^ z >> 27) * 0x94d049bb133111ebu;
    return z ^ z >> 31;
}

static double now(void) {
    struct timespec t;
    clock_gettime(CLOCK_MONOTONIC, &t);
    return (double)t.tv_sec * 1e9 + (double)t.tv_nsec;
}

static void fill(struct line_frame *f) {
    uint64_t a = next(), b = next(), c = next();
    memset(f, 0, sizeof *f);
    f->kind = 1 + (a & 3);
    f->sender = a >> 8 & 255;
    f->addressee = a >> 16 & 255;
    f->s = a >> 36;
    f->r = f->kind == 1 ? 0 : b >> 36;
    f->n = f->kind <= 2 ? c >> 36 : 0;
    f->l = f->kind == 1 ? b & 0xfffffff : 0;
    f->place = f->kind == 3 ? c & 1023 : 0;
    f->step = f->kind == 3 ? (int32_t)(c >> 16 & 0xffff) - 32768 : 0;
}

static void batch(struct way *w) {
    double t0 = now();
    for (int i = 0; i < BATCH; i++) {
        w->wrote[i] = w->write(&frames[i], w->runs[i], ROOM);
    }
    double t1 = now();
    for (int i = 0; i < BATCH; i++) {
        w->took[i] = w->read(w->runs[i], ROOM, &w->back[i]);
    }
    w->write_ns += t1 - t0;
    w->read_ns += now() - t1;
}

static void differ(const char *what) {
    printf("the two ways differ: %s\n", what);
    exit(1);
}

// Both ways gave the same counts, words and frames, and the frames are those that went in.
static void compare(void) {
    if (memcmp(proved.wrote, plain.wrote, sizeof proved.wrote) != 0 || memcmp(proved.runs, plain.runs, sizeof proved.runs) != 0) {
        differ("writing");
    }
    if (memcmp(proved.took, plain.took, sizeof proved.took) != 0 || memcmp(proved.back, plain.back, sizeof proved.back) != 0) {
        differ("reading");
    }
    if (memcmp(proved.back, frames, sizeof frames) != 0) {
        differ("what was written is not read back");
    }
}

// Puts one part of a frame in eight, or of its run, out of range.
static void spoil(struct line_frame *f, size_t *room) {
    uint64_t a = next();
    f->kind = a & 7 ? f->kind : (a >> 8) % 7;
    f->sender += a >> 16 & 7 ? 0 : 256;
    f->s += a >> 24 & 7 ? 0 : 1 << 28;
    f->n += a >> 28 & 7 ? 0 : 1 << 28;
    f->place += a >> 32 & 7 ? 0 : 1024;
    f->step -= a >> 40 & 7 ? 0 : 65536;
    *room = a >> 48 & 7 ? ROOM : a >> 56 & 3;
}

// Spoiled frames and runs are refused alike, each with its number, and change nothing.
static void compare_refusals(void) {
    int met[21] = {0};
    for (int i = 0; i < 1000000; i++) {
        struct line_frame f, g, h;
        uint32_t run[ROOM] = {7, 7, 7, 7}, other[ROOM] = {7, 7, 7, 7};
        size_t room;
        fill(&f);
        plain_write_line(&f, run, ROOM);
        memcpy(other, run, sizeof run);
        spoil(&f, &room);
        int64_t n = keyvurram_write_line(&f, run, room);
        if (n != plain_write_line(&f, other, room) || memcmp(run, other, sizeof run) != 0) {
            differ("refusals of writing");
        }
        run[next() & 3] ^= 1u << (next() & 31);
        g = h = f;
        int64_t m = keyvurram_read_line(run, room, &g);
        if (m != plain_read_line(run, room, &h) || memcmp(&g, &h, sizeof g) != 0) {
            differ("refusals of reading");
        }
        met[n < 0 ? -n : 0]++;
        met[m < 0 ? -m : 0]++;
    }
    printf("refusals alike, by number:");
    for (int k = 12; k <= 20; k++) {
        printf(" %d: %d%s", k, met[k], k < 20 ? "," : "\n");
    }
}

// A checksum of the words and frames of a batch, so that a run can be told from another.
static uint64_t sum(uint64_t h, const struct way *w) {
    for (int i = 0; i < BATCH; i++) {
        for (int k = 0; k < ROOM; k++) {
            h = (h ^ w->runs[i][k]) * 0x100000001b3u;
        }
        const struct line_frame *f = &w->back[i];
        h = (h ^ f->kind ^ f->s ^ f->r ^ f->n ^ f->l ^ f->place ^ (uint64_t)f->step) * 0x100000001b3u;
    }
    return h;
}

static void round_of_all(uint64_t *proved_sum, uint64_t *plain_sum) {
    seed = 1;
    *proved_sum = *plain_sum = 0;
    proved.write_ns = proved.read_ns = plain.write_ns = plain.read_ns = 0;
    for (int b = 0; b < BATCHES; b++) {
        for (int i = 0; i < BATCH; i++) {
            fill(&frames[i]);
        }
        memset(proved.runs, 0, sizeof proved.runs);
        memset(plain.runs, 0, sizeof plain.runs);
        batch(b % 2 == 0 ? &proved : &plain);
        batch(b % 2 == 0 ? &plain : &proved);
        compare();
        *proved_sum = sum(*proved_sum, &proved);
        *plain_sum = sum(*plain_sum, &plain);
    }
}

int main(void) {
    double best[4] = {1e30, 1e30, 1e30, 1e30}, frame_count = (double)BATCH * BATCHES;
    compare_refusals();
    for (int round = 0; round < ROUNDS; round++) {
        uint64_t a, b;
        round_of_all(&a, &b);
        if (a != b) {
            differ("checksums");
        }
        double ns[4] = {proved.write_ns, proved.read_ns, plain.write_ns, plain.read_ns};
        for (int k = 0; k < 4; k++) {
            best[k] = ns[k] / frame_count < best[k] ? ns[k] / frame_count : best[k];
        }
        printf("round %d: %.0f frames, checksum %016llx both ways\n", round + 1, frame_count, (unsigned long long)a);
    }
    printf("proved: write %.2f ns, read %.2f ns a frame\n", best[0], best[1]);
    printf("plain:  write %.2f ns, read %.2f ns a frame\n", best[2], best[3]);
    printf("ratio:  write %.2f, read %.2f, both %.2f\n", best[0] / best[2], best[1] / best[3], (best[0] + best[1]) / (best[2] + best[3]));
    return 0;
}
