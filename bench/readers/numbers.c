/* numbers whole|pieces FILE: adds up a file's numbers without checking the syntax, in the mapped
 * file or in pieces of 65,536 bytes. Prints the nanoseconds of each pass. */
#include <fcntl.h>
#include <stdint.h>
#include <stdio.h>
#include <string.h>
#include <sys/mman.h>
#include <sys/stat.h>
#include <time.h>
#include <unistd.h>

enum { PIECE = 65536, PASSES = 5 };

static char piece[PIECE];

static int64_t now(void) {
    struct timespec t;
    clock_gettime(CLOCK_MONOTONIC, &t);
    return t.tv_sec * 1000000000LL + t.tv_nsec;
}

static uint64_t sum_of_text(const unsigned char *at, const unsigned char *end) {
    uint64_t sum = 0;
    while (at < end) {
        unsigned digit = *at++ - '0';
        if (digit > 9) continue;
        uint64_t value = digit;
        while (at < end && (digit = *at - '0') <= 9) {
            value = 10 * value + digit;
            at++;
        }
        sum += value;
    }
    return sum;
}

static uint64_t sum_of_pieces(int file) {
    uint64_t sum = 0, value = 0;
    int inside = 0;
    for (ssize_t count; (count = read(file, piece, PIECE)) > 0;) {
        for (ssize_t i = 0; i < count; i++) {
            unsigned digit = (unsigned char)piece[i] - '0';
            if (digit <= 9) {
                value = value * 10 + digit;
                inside = 1;
            } else if (inside) {
                sum += value;
                value = 0;
                inside = 0;
            }
        }
    }
    return sum;
}

int main(int argc, char **argv) {
    if (argc != 3) return 2;
    int whole = strcmp(argv[1], "whole") == 0;
    int file = open(argv[2], O_RDONLY);
    struct stat info;
    if (file < 0 || fstat(file, &info) != 0) return 1;
    size_t size = (size_t)info.st_size;
    unsigned char *text = NULL;
    if (whole) {
        text = mmap(NULL, size, PROT_READ, MAP_PRIVATE | MAP_POPULATE, file, 0);
        if (text == MAP_FAILED) return 1;
    }
    for (int pass = 0; pass < PASSES; pass++) {
        if (!whole && lseek(file, 0, SEEK_SET) != 0) return 1;
        int64_t start = now();
        uint64_t sum = whole ? sum_of_text(text, text + size) : sum_of_pieces(file);
        printf("%s sum %llu %lld ns\n", argv[2], (unsigned long long)sum,
               (long long)(now() - start));
    }
    return 0;
}
