/* Runs calls through the proved core, the C by hand or the Rust by hand, and tells the time or what each call gave. */
#include <stdint.h>
#include <stdio.h>
#include <stdlib.h>
#include <string.h>
#include <time.h>

typedef uint32_t run_calls(const uint8_t *, size_t, const uint8_t *, size_t, uint32_t);
typedef void trace_calls(const uint8_t *, size_t, uint8_t *, size_t);
typedef size_t size_of(void);

run_calls core_run, hand_c_run, hand_rust_run;
trace_calls core_trace, hand_c_trace, hand_rust_trace;
size_of core_size, hand_c_size, hand_rust_size;

static const struct {
    const char *name;
    run_calls *run;
    trace_calls *trace;
    size_of *size;
} makers[] = {
    { "core", core_run, core_trace, core_size },
    { "c", hand_c_run, hand_c_trace, hand_c_size },
    { "rust", hand_rust_run, hand_rust_trace, hand_rust_size },
};

struct octets {
    uint8_t *at;
    size_t length;
};

static struct octets load(const char *name)
{
    FILE *file = fopen(name, "rb");
    if (!file || fseek(file, 0, SEEK_END) != 0) {
        perror(name);
        exit(2);
    }
    struct octets octets = { .length = (size_t)ftell(file) };
    rewind(file);
    octets.at = malloc(octets.length + 1);
    if (!octets.at || fread(octets.at, 1, octets.length, file) != octets.length) {
        perror(name);
        exit(2);
    }
    fclose(file);
    return octets;
}

static double now(void)
{
    struct timespec t;
    clock_gettime(CLOCK_MONOTONIC, &t);
    return (double)t.tv_sec * 1e9 + (double)t.tv_nsec;
}

/* bench MAKER size | bench MAKER trace ROWS | bench MAKER run FIRST ROWS TIMES */
int main(int argc, char **argv)
{
    size_t m = 0;
    while (argc > 2 && m < 3 && strcmp(argv[1], makers[m].name) != 0)
        m++;
    if (argc < 3 || m == 3)
        return 2;
    if (strcmp(argv[2], "size") == 0) {
        printf("%zu\n", makers[m].size());
    } else if (strcmp(argv[2], "trace") == 0 && argc == 4) {
        struct octets rows = load(argv[3]);
        struct octets log = { .length = rows.length / 64 * 68 };
        log.at = calloc(log.length + 1, 1);
        makers[m].trace(rows.at, rows.length, log.at, log.length);
        fwrite(log.at, 1, log.length, stdout);
    } else if (strcmp(argv[2], "run") == 0 && argc == 6) {
        struct octets first = load(argv[3]), rows = load(argv[4]);
        double start = now();
        uint32_t sum = makers[m].run(first.at, first.length, rows.at, rows.length, (uint32_t)atoi(argv[5]));
        printf("%u %.0f\n", sum, now() - start);
    } else {
        return 2;
    }
    return 0;
}
