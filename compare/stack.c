/* stack BYTES KIND:FILE..: runs each operation on each source in a thread of its own with that many bytes of stack, which is painted before, and prints how many bytes each has used at most.
 * Tables are lent for any source of 65,536 bytes. A thread that needs more stack than it has is killed at the guard page. */
#define _GNU_SOURCE
#include "lent.h"
#include <pthread.h>
#include <sys/mman.h>

#define PAINT 0xa5

/* Pruning comes last: it changes the reading. Loading back leaves the same one. */
enum { SHIP, LOAD, VALIDATE, FAULTS, REPORT, MARK, STORE, LOAD_STORED, PRUNE, OPERATIONS };
static const char *const names[OPERATIONS] = {"ship", "load", "validate", "faults", "report", "mark", "store", "load_stored", "prune"};
static uint32_t answer[64], kind, *work, *out;
static size_t work_length = 8192, out_length = 4 * 65538, blocks_length = 8 << 20;
static uint8_t *blocks, back[65536], text[QUILTRUDDER_SOURCE_BYTES];

static void *run(void *which) {
    switch (*(int *)which) {
    case SHIP: quiltrudder_ship(src, len, kind, TABLES, text, sizeof text, answer); break;
    case LOAD: quiltrudder_load(src, len, kind, ALL_TABLES, o); break;
    case VALIDATE: quiltrudder_validate(src, len, o, TABLES, answer); break;
    case FAULTS: quiltrudder_faults(src, len, o, TABLES, out, out_length, answer); break;
    case REPORT: quiltrudder_report(src, len, o, TABLES, work, work_length, out, out_length, answer); break;
    case MARK: quiltrudder_mark(src, len, o, TABLES, work, work_length, answer); break;
    case STORE: quiltrudder_store(src, len, kind, o, ALL_TABLES, blocks, blocks_length, answer); break;
    case LOAD_STORED: quiltrudder_load_stored(blocks, answer[QUILTRUDDER_COUNT_LOW] * QUILTRUDDER_BLOCK_BYTES, back, sizeof back, ALL_TABLES, answer); break;
    default: quiltrudder_prune(src, len, o, TABLES, work, work_length, answer);
    }
    return NULL;
}

static size_t used_by(int which, size_t size) {
    uint8_t *stack = mmap(NULL, size, PROT_READ | PROT_WRITE, MAP_PRIVATE | MAP_ANONYMOUS, -1, 0);
    if (stack == MAP_FAILED) exit(2);
    memset(stack, PAINT, size);
    pthread_attr_t attr;
    pthread_t thread;
    pthread_attr_init(&attr);
    if (pthread_attr_setstack(&attr, stack, size) || pthread_create(&thread, &attr, run, &which) || pthread_join(thread, NULL)) exit(2);
    size_t free_bytes = 0;
    while (free_bytes < size && stack[free_bytes] == PAINT) free_bytes++;
    munmap(stack, size);
    return size - free_bytes;
}

int main(int argc, char **argv) {
    size_t size = strtoul(argv[1], NULL, 10), most[OPERATIONS] = {0};
    static uint8_t bytes[65536];
    work = calloc(work_length, sizeof *work);
    out = calloc(out_length, sizeof *out);
    blocks = malloc(blocks_length);
    for (int k = 1; k <= 10; k++) t[k] = calloc(n[k] = 65538 * width[k], sizeof **t);
    for (int i = 2; i < argc; i++) {
        FILE *f = fopen(argv[i] + 2, "rb");
        if (!f) exit(2);
        kind = argv[i][0] - '0';
        len = fread(bytes, 1, sizeof bytes, f);
        src = bytes;
        fclose(f);
        lend_indexes();
        for (int k = 0; k < OPERATIONS; k++) {
            size_t used = used_by(k, size);
            if (used > most[k]) most[k] = used;
        }
    }
    for (int k = 0; k < OPERATIONS; k++) printf("%s %zu\n", names[k], most[k]);
}
