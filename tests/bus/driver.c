/*
 * Answers calls of zeldrupt_recall, read from standard input: file length, cell, moment and area length, four bytes each,
 * then the file's bytes and the area's. Writes the answer in four bytes and then the area.
 * File and area each end where a page begins that can be neither read nor written, and the file itself cannot be written,
 * so a reading past either or a writing to the file ends the program.
 */
#include <stdio.h>
#include <stdlib.h>
#include <string.h>
#include <sys/mman.h>
#include <unistd.h>
#include "zeldrupt.h"

struct stretch {
    uint8_t *pages;
    size_t size;
};

static void fail(const char *what) {
    fprintf(stderr, "driver: %s\n", what);
    exit(2);
}

/* room for n bytes, with a page behind that is shut */
static struct stretch room_for(size_t n) {
    size_t page = (size_t)sysconf(_SC_PAGESIZE);
    struct stretch s;
    s.size = (n / page + 1) * page;
    s.pages = mmap(NULL, s.size + page, PROT_READ | PROT_WRITE, MAP_PRIVATE | MAP_ANONYMOUS, -1, 0);
    if (s.pages == MAP_FAILED || mprotect(s.pages + s.size, page, PROT_NONE) != 0) {
        fail("no memory");
    }
    return s;
}

static uint8_t *end_of(struct stretch s, size_t n) {
    return s.pages + s.size - n;
}

static void give_back(struct stretch s) {
    munmap(s.pages, s.size + (size_t)sysconf(_SC_PAGESIZE));
}

static void read_bytes(uint8_t *to, size_t n) {
    if (fread(to, 1, n, stdin) != n) {
        fail("input ends within a call");
    }
}

static uint32_t number(const uint8_t *b) {
    return b[0] | (uint32_t)b[1] << 8 | (uint32_t)b[2] << 16 | (uint32_t)b[3] << 24;
}

int main(void) {
    uint8_t head[16];
    size_t got;
    while ((got = fread(head, 1, sizeof head, stdin)) == sizeof head) {
        size_t file_len = number(head), out_len = number(head + 12);
        struct stretch f = room_for(file_len), o = room_for(out_len);
        uint8_t *file = end_of(f, file_len), *out = end_of(o, out_len);
        read_bytes(file, file_len);
        read_bytes(out, out_len);
        if (mprotect(f.pages, f.size, PROT_READ) != 0) {
            fail("no protection");
        }
        uint32_t a = zeldrupt_recall(file, file_len, number(head + 4), number(head + 8), out, out_len);
        uint8_t answer[4] = {(uint8_t)a, (uint8_t)(a >> 8), (uint8_t)(a >> 16), (uint8_t)(a >> 24)};
        fwrite(answer, 1, 4, stdout);
        fwrite(out, 1, out_len, stdout);
        give_back(f);
        give_back(o);
    }
    if (got != 0) {
        fail("input ends within a call");
    }
    return 0;
}
