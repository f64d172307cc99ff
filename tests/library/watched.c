/* A library in front of the built one, which RIGHT names. It counts the calls, and returns something else on request.
 *
 *   STATUS=N    each call but those for names returns the status N, and does nothing
 *   VERSION=V   the version is V
 *   MEET=N      a call for a block waits until so many threads are inside one at the same time, or ten minutes have passed
 *
 * A call with a pointer that is NULL, which exifnorm.h forbids, ends the process.
 */
#define _GNU_SOURCE
#include <dlfcn.h>
#include <exifnorm.h>
#include <pthread.h>
#include <stdlib.h>
#include <string.h>
#include <time.h>

/* How often each call was made: check, normalise, compare, show, captions, cause_name, version, jpeg_parts, photoshop_resources,
 * jpeg_same, jpeg_blocks, jpeg_unread, xmp_check, xmp_normalise, jpeg_xmp, jpeg_same_blocks, xmp_unsorted. */
unsigned long watched_calls[17];
/* The length of the output of the calls for texts: of the last one, and of all together. */
unsigned long watched_room, watched_rooms;
/* The most threads that were inside such a call at once. */
unsigned long watched_inside;

static void *right;
static pthread_mutex_t lock = PTHREAD_MUTEX_INITIALIZER;
static pthread_cond_t entered = PTHREAD_COND_INITIALIZER;
static unsigned long inside;
static int waited; /* in vain: the others wait no more */

__attribute__((constructor)) static void open_right(void) {
    right = dlopen(getenv("RIGHT"), RTLD_NOW | RTLD_LOCAL);
    if (!right)
        abort();
}

static void count_call(int call) {
    __atomic_add_fetch(&watched_calls[call], 1, __ATOMIC_RELAXED);
}

static void need(const void *one, const void *two, const void *three, const void *four) {
    if (!one || !two || !three || !four)
        abort();
}

static int has_status(uint32_t *status) {
    const char *asked = getenv("STATUS");
    if (asked)
        *status = (uint32_t)atoi(asked);
    return asked != NULL;
}

/* Waits for the others. */
static void meet(void) {
    struct timespec until;
    unsigned long most = getenv("MEET") ? strtoul(getenv("MEET"), NULL, 10) : 0;
    if (most == 0)
        return;
    clock_gettime(CLOCK_REALTIME, &until);
    until.tv_sec += 600;
    pthread_mutex_lock(&lock);
    inside++;
    watched_inside = inside > watched_inside ? inside : watched_inside;
    pthread_cond_broadcast(&entered);
    while (watched_inside < most && !waited)
        waited = pthread_cond_timedwait(&entered, &lock, &until) != 0;
    inside--;
    pthread_mutex_unlock(&lock);
}

uint32_t exifnorm_check(const unsigned char *block, size_t length, uint32_t *kind, struct exifnorm_fault *fault) {
    uint32_t (*call)(const unsigned char *, size_t, uint32_t *, struct exifnorm_fault *);
    uint32_t status;
    count_call(0);
    need(block, kind, fault, fault);
    meet();
    *(void **)&call = dlsym(right, "exifnorm_check");
    return has_status(&status) ? status : call(block, length, kind, fault);
}

uint32_t exifnorm_compare(const unsigned char *first, size_t first_length, const unsigned char *second, size_t second_length,
                          uint32_t *same, struct exifnorm_fault *fault) {
    uint32_t (*call)(const unsigned char *, size_t, const unsigned char *, size_t, uint32_t *, struct exifnorm_fault *);
    uint32_t status;
    count_call(2);
    need(first, second, same, fault);
    meet();
    *(void **)&call = dlsym(right, "exifnorm_compare");
    return has_status(&status) ? status : call(first, first_length, second, second_length, same, fault);
}

#define TEXT(name, number) \
    uint32_t name(const unsigned char *block, size_t length, unsigned char *out, size_t room, size_t *written, \
                  struct exifnorm_fault *fault) { \
        uint32_t (*call)(const unsigned char *, size_t, unsigned char *, size_t, size_t *, struct exifnorm_fault *); \
        uint32_t status; \
        count_call(number); \
        need(block, out, written, fault); \
        meet(); \
        watched_room = room; \
        watched_rooms += room; \
        *(void **)&call = dlsym(right, #name); \
        return has_status(&status) ? status : call(block, length, out, room, written, fault); \
    }

TEXT(exifnorm_normalise, 1)
TEXT(exifnorm_show, 3)
TEXT(exifnorm_captions, 4)
TEXT(exifnorm_xmp_normalise, 13)
TEXT(exifnorm_xmp_unsorted, 16)

uint32_t exifnorm_xmp_check(const unsigned char *packet, size_t length, struct exifnorm_fault *fault) {
    uint32_t (*call)(const unsigned char *, size_t, struct exifnorm_fault *);
    uint32_t status;
    count_call(12);
    need(packet, fault, fault, fault);
    meet();
    *(void **)&call = dlsym(right, "exifnorm_xmp_check");
    return has_status(&status) ? status : call(packet, length, fault);
}

uint32_t exifnorm_jpeg_parts(const unsigned char *bytes, size_t length, struct exifnorm_jpeg_part *parts, size_t room, size_t *count,
                             struct exifnorm_jpeg_fault *fault) {
    uint32_t (*call)(const unsigned char *, size_t, struct exifnorm_jpeg_part *, size_t, size_t *, struct exifnorm_jpeg_fault *);
    uint32_t status;
    count_call(7);
    need(bytes, parts, count, fault);
    *(void **)&call = dlsym(right, "exifnorm_jpeg_parts");
    return has_status(&status) ? status : call(bytes, length, parts, room, count, fault);
}

uint32_t exifnorm_photoshop_resources(const unsigned char *bytes, size_t length, struct exifnorm_photoshop_resource *resources, size_t room,
                                      size_t *count) {
    uint32_t (*call)(const unsigned char *, size_t, struct exifnorm_photoshop_resource *, size_t, size_t *);
    uint32_t status;
    count_call(8);
    need(bytes, resources, count, count);
    *(void **)&call = dlsym(right, "exifnorm_photoshop_resources");
    return has_status(&status) ? status : call(bytes, length, resources, room, count);
}

#define SAME(name, number) \
    uint32_t name(const unsigned char *first, size_t first_length, const unsigned char *second, size_t second_length, uint32_t *same, \
                  struct exifnorm_unread_part *unread, struct exifnorm_picture_fault *fault) { \
        uint32_t (*call)(const unsigned char *, size_t, const unsigned char *, size_t, uint32_t *, struct exifnorm_unread_part *, \
                         struct exifnorm_picture_fault *); \
        uint32_t status; \
        count_call(number); \
        need(first, second, same, fault); \
        need(unread, unread, unread, unread); \
        *(void **)&call = dlsym(right, #name); \
        return has_status(&status) ? status : call(first, first_length, second, second_length, same, unread, fault); \
    }

SAME(exifnorm_jpeg_same, 9)
SAME(exifnorm_jpeg_same_blocks, 15)

uint32_t exifnorm_jpeg_blocks(const unsigned char *bytes, size_t length, struct exifnorm_jpeg_block *blocks, size_t room, unsigned char *out,
                              size_t out_length, struct exifnorm_jpeg_sizes *sizes, struct exifnorm_jpeg_fault *fault) {
    uint32_t (*call)(const unsigned char *, size_t, struct exifnorm_jpeg_block *, size_t, unsigned char *, size_t,
                     struct exifnorm_jpeg_sizes *, struct exifnorm_jpeg_fault *);
    uint32_t status;
    count_call(10);
    need(bytes, blocks, out, sizes);
    need(fault, fault, fault, fault);
    *(void **)&call = dlsym(right, "exifnorm_jpeg_blocks");
    return has_status(&status) ? status : call(bytes, length, blocks, room, out, out_length, sizes, fault);
}

uint32_t exifnorm_jpeg_unread(const unsigned char *bytes, size_t length, struct exifnorm_unread_part *unread, struct exifnorm_jpeg_fault *fault) {
    uint32_t (*call)(const unsigned char *, size_t, struct exifnorm_unread_part *, struct exifnorm_jpeg_fault *);
    uint32_t status;
    count_call(11);
    need(bytes, unread, fault, fault);
    *(void **)&call = dlsym(right, "exifnorm_jpeg_unread");
    return has_status(&status) ? status : call(bytes, length, unread, fault);
}

uint32_t exifnorm_jpeg_xmp(const unsigned char *bytes, size_t length, struct exifnorm_jpeg_packet *packet, struct exifnorm_unread_part *unread,
                           struct exifnorm_jpeg_fault *fault) {
    uint32_t (*call)(const unsigned char *, size_t, struct exifnorm_jpeg_packet *, struct exifnorm_unread_part *, struct exifnorm_jpeg_fault *);
    uint32_t status;
    count_call(14);
    need(bytes, packet, unread, fault);
    *(void **)&call = dlsym(right, "exifnorm_jpeg_xmp");
    return has_status(&status) ? status : call(bytes, length, packet, unread, fault);
}

uint32_t exifnorm_cause_name(uint32_t cause, char *out, size_t room, size_t *written) {
    uint32_t (*call)(uint32_t, char *, size_t, size_t *);
    count_call(5);
    *(void **)&call = dlsym(right, "exifnorm_cause_name");
    return call(cause, out, room, written);
}

uint32_t exifnorm_version(char *out, size_t room, size_t *written) {
    const char *version = getenv("VERSION");
    uint32_t (*call)(char *, size_t, size_t *);
    count_call(6);
    *(void **)&call = dlsym(right, "exifnorm_version");
    if (!version)
        return call(out, room, written);
    *written = strlen(version) + 1;
    memcpy(out, version, *written);
    return EXIFNORM_DONE;
}
