/* For preloaded libraries: they see what a program does from the beginning of its main to its return, and not what the C library and
 * the loader do before. The library replaces __libc_start_main, which gets the program's main, and passes on a main that calls
 * `begins` first and `ends` last. */
#ifndef MAIN_ONLY_H
#define MAIN_ONLY_H
#include <dlfcn.h>
#include <stddef.h>
#include <stdlib.h>

typedef int Main(int, char **, char **);
typedef int Start(Main *, int, char **, void (*)(void), void (*)(void), void (*)(void), void *);

static void begins(void);
static void ends(void);

static Main *program_main;

static int watched_main(int count, char **words, char **environment) {
    begins();
    int status = program_main(count, words, environment);
    ends();
    return status;
}

int __libc_start_main(Main *main, int count, char **words, void (*init)(void), void (*fini)(void),
                      void (*loader_fini)(void), void *stack_end) {
    Start *start = (Start *)dlsym(RTLD_NEXT, "__libc_start_main");
    program_main = main;
    return start(watched_main, count, words, init, fini, loader_fini, stack_end);
}

static long number_in(const char *name, long otherwise) {
    const char *text = getenv(name);
    return text ? strtol(text, NULL, 10) : otherwise;
}

/* The C library's own function of this name. */
#define OWN(name, type) \
    static type *own; \
    if (!own) \
        own = (type *)dlsym(RTLD_NEXT, name)

#endif
