/* Calls the library from sixteen threads at once, each on a stack of 512 KiB, for the same inputs, as
 * exifnorm.h allows: each thread must get what the first one gets.
 *
 *   threads FILE ..    blocks, packets and pictures. Prints a line for each that threads disagree about,
 *                      and how many were tried
 */
#define _POSIX_C_SOURCE 200112L
#include <exifnorm.h>
#include <pthread.h>
#include <stdio.h>
#include <stdlib.h>
#include <string.h>

enum { THREADS = 16, STACK = 512 * 1024, ROUNDS = 10, ROOM = 1 << 14, PARTS = 64, TEXTS = 5 };

typedef uint32_t Text(const unsigned char *, size_t, unsigned char *, size_t, size_t *,
                      struct exifnorm_fault *);
static Text *const texts[TEXTS] = {exifnorm_normalise, exifnorm_show, exifnorm_captions,
                                   exifnorm_xmp_normalise, exifnorm_xmp_unsorted};

/* What a thread gets for an input. */
struct answer {
    uint32_t status[TEXTS + 8], number[4];
    size_t written[TEXTS], count;
    struct exifnorm_fault fault[TEXTS + 3];
    struct exifnorm_jpeg_fault of_head[3];
    struct exifnorm_picture_fault of_pictures[2];
    struct exifnorm_unread_part unread[4];
    struct exifnorm_jpeg_packet packet;
    struct exifnorm_jpeg_part parts[PARTS];
    unsigned char out[TEXTS][ROOM];
};

static const unsigned char *input;
static size_t length;
static pthread_barrier_t start;

static void ask(struct answer *it) {
    uint32_t *status = it->status + TEXTS;
    memset(it, 0, sizeof *it);
    for (int i = 0; i < TEXTS; i++)
        it->status[i] = texts[i](input, length, it->out[i], ROOM, &it->written[i], &it->fault[i]);
    status[0] = exifnorm_check(input, length, &it->number[0], &it->fault[TEXTS]);
    status[1] = exifnorm_compare(input, length, input, length / 2, &it->number[1], &it->fault[TEXTS + 1]);
    status[2] = exifnorm_xmp_check(input, length, &it->fault[TEXTS + 2]);
    status[3] = exifnorm_jpeg_parts(input, length, it->parts, PARTS, &it->count, &it->of_head[0]);
    status[4] = exifnorm_jpeg_unread(input, length, &it->unread[0], &it->of_head[1]);
    status[5] = exifnorm_jpeg_xmp(input, length, &it->packet, &it->unread[1], &it->of_head[2]);
    status[6] = exifnorm_jpeg_same(input, length, input, length, &it->number[2], &it->unread[2],
                                   &it->of_pictures[0]);
    status[7] = exifnorm_jpeg_same_blocks(input, length, input, length, &it->number[3], &it->unread[3],
                                          &it->of_pictures[1]);
}

static void *work(void *answer) {
    pthread_barrier_wait(&start);
    for (int i = 0; i < ROUNDS; i++)
        ask(answer);
    return NULL;
}

static void require(int holds, const char *what) {
    if (!holds) {
        perror(what);
        exit(1);
    }
}

/* Reads a file into memory of just its length. */
static unsigned char *contents(const char *name) {
    FILE *file = fopen(name, "rb");
    require(file && fseek(file, 0, SEEK_END) == 0, name);
    length = (size_t)ftell(file);
    rewind(file);
    unsigned char *bytes = malloc(length + !length);
    require(bytes && fread(bytes, 1, length, file) == length, name);
    fclose(file);
    return bytes;
}

int main(int count, char **names) {
    static struct answer answers[THREADS];
    pthread_t threads[THREADS];
    pthread_attr_t small;
    require(!pthread_attr_init(&small) && !pthread_attr_setstacksize(&small, STACK), "stack");
    for (int at = 1; at < count; at++) {
        unsigned char *bytes = contents(names[at]);
        input = bytes;
        require(!pthread_barrier_init(&start, NULL, THREADS), "barrier");
        for (int i = 0; i < THREADS; i++)
            require(!pthread_create(&threads[i], &small, work, &answers[i]), "thread");
        for (int i = 0; i < THREADS; i++)
            require(!pthread_join(threads[i], NULL), "thread");
        for (int i = 1; i < THREADS; i++)
            if (memcmp(&answers[0], &answers[i], sizeof answers[0]) != 0)
                printf("%s: thread %d gets something else\n", names[at], i);
        pthread_barrier_destroy(&start);
        free(bytes);
    }
    printf("%d inputs\n", count - 1);
    return 0;
}
