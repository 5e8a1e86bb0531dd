/* The calls and the bytes of the appends of a journal, as a plain loop: a side with the base "base", then for each
 * record its length, a payload of 'x' and a closed gate, a sync, the open gate, a sync. Prints the microseconds.
 * usage: journal_loop COUNT SIZE FILE */
#include <fcntl.h>
#include <stdio.h>
#include <stdlib.h>
#include <string.h>
#include <time.h>
#include <unistd.h>

static void put(int file, off_t at, const void *bytes, size_t count) {
    if (lseek(file, at, SEEK_SET) != at || write(file, bytes, count) != (ssize_t)count || fdatasync(file) != 0) {
        perror("journal_loop");
        exit(1);
    }
}

int main(int words, char **word) {
    static const unsigned char head[] = {1, 0, 0, 0, 0, 0, 0, 0, 1, 0, 0, 0, 4, 'b', 'a', 's', 'e', 0};
    if (words != 4) return 2;
    long count = atol(word[1]);
    size_t size = (size_t)atol(word[2]);
    unsigned char *record = malloc(size + 5);
    if (record == NULL || size == 0 || size > 131072) return 2;
    for (int i = 0; i < 4; i++) record[i] = (unsigned char)(size >> (24 - 8 * i));
    memset(record + 4, 'x', size);
    record[size + 4] = 0;
    int file = open(word[3], O_RDWR | O_CREAT | O_TRUNC, 0666);
    if (file < 0) return 1;
    put(file, 0, head, sizeof head);
    off_t gate = sizeof head - 1;
    struct timespec start, end;
    clock_gettime(CLOCK_MONOTONIC, &start);
    for (long i = 0; i < count; i++) {
        put(file, gate + 1, record, size + 5);
        put(file, gate, "\1", 1);
        gate += (off_t)size + 5;
    }
    clock_gettime(CLOCK_MONOTONIC, &end);
    printf("%lld\n", (end.tv_sec - start.tv_sec) * 1000000LL + (end.tv_nsec - start.tv_nsec) / 1000);
    return 0;
}
