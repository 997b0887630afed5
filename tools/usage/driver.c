/* driver [--old] [--room WORDS] [--stack BYTES] [BUNDLE]: the ranges that the listing of a bundle uses, by the crate `usage`; of the bundle in a
   file, or of the one on standard input. Printed are their number and then one range a line, file, offset, length; or `refused` and the number.
   The call is made on a stack of BYTES, below which nothing can be touched: a smaller one than it needs ends the program by a signal. */
#define _GNU_SOURCE
#include <pthread.h>
#include <stdint.h>
#include <stdio.h>
#include <stdlib.h>
#include <string.h>
#include <sys/mman.h>

uint64_t face_bundle(const uint8_t *, size_t, uint64_t, uint64_t *, uint32_t *, uint64_t *, size_t);

static uint8_t bundle[32769];
static size_t length;
static uint64_t reading = 1, words[4096], *out, answer;
static uint32_t index_words[10240];
static size_t room = 3 * 32768;

static void *call(void *unused) {
    (void)unused;
    answer = face_bundle(bundle, length, reading, words, index_words, out, room);
    return NULL;
}

static void on_stack(size_t bytes) {
    size_t guard = 1 << 22;
    bytes = (bytes + 4095) / 4096 * 4096;
    char *low = mmap(NULL, guard + bytes, PROT_READ | PROT_WRITE, MAP_PRIVATE | MAP_ANONYMOUS, -1, 0);
    if (low == MAP_FAILED || mprotect(low, guard, PROT_NONE)) {
        perror("driver");
        exit(2);
    }
    pthread_attr_t attr;
    pthread_t thread;
    pthread_attr_init(&attr);
    if (pthread_attr_setstack(&attr, low + guard, bytes) || pthread_create(&thread, &attr, call, NULL)) {
        fprintf(stderr, "driver: no thread with a stack of %zu bytes\n", bytes);
        exit(2);
    }
    pthread_join(thread, NULL);
}

int main(int count, char **args) {
    const char *path = NULL;
    size_t stack = 0;
    for (int i = 1; i < count; i++) {
        if (!strcmp(args[i], "--old"))
            reading = 0;
        else if (!strcmp(args[i], "--room") && i + 1 < count)
            room = strtoul(args[++i], NULL, 10);
        else if (!strcmp(args[i], "--stack") && i + 1 < count)
            stack = strtoul(args[++i], NULL, 10);
        else
            path = args[i];
    }
    FILE *from = path ? fopen(path, "rb") : stdin;
    if (!from) {
        perror(path);
        return 2;
    }
    length = fread(bundle, 1, sizeof bundle, from);
    out = calloc(room + 1, 8);
    if (stack)
        on_stack(stack);
    else
        call(NULL);
    if (answer >= UINT64_MAX - 1000) {
        printf("refused %d\n", (int)(answer + 1001));
        return 0;
    }
    printf("%llu\n", (unsigned long long)answer);
    for (uint64_t k = 0; k < answer; k++)
        printf("%llu %llu %llu\n", (unsigned long long)out[3 * k], (unsigned long long)out[3 * k + 1], (unsigned long long)out[3 * k + 2]);
    return 0;
}
