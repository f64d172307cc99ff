/* Loads a library at run time, as Python does: load FILE. Prints its version, and whether two blocks of one caption mean the same. */
#include "exifnorm.h"
#include <stdio.h>
#ifdef _WIN32
#include <windows.h>
#define RTLD_NOW 0
#define dlopen(name, how) ((void *)LoadLibraryA(name))
#define dlsym(library, name) ((void *)GetProcAddress((HMODULE)(library), name))
#define dlerror() "it can't be loaded"
#else
#include <dlfcn.h>
#endif

static const unsigned char FIRST[] = "\034\002\170\000\004Vase", SECOND[] = "\034\002\170\200\004\000\000\000\004Vase";

int main(int argc, char **argv) {
    void *library = argc == 2 ? dlopen(argv[1], RTLD_NOW) : NULL;
    uint32_t (*version)(char *, size_t, size_t *);
    uint32_t (*compare)(const unsigned char *, size_t, const unsigned char *, size_t, uint32_t *, struct exifnorm_fault *);
    char text[EXIFNORM_NAME_ROOM];
    size_t written;
    uint32_t same;
    struct exifnorm_fault fault;
    if (!library) {
        fprintf(stderr, "%s\n", dlerror());
        return 1;
    }
    *(void **)&version = dlsym(library, "exifnorm_version");
    *(void **)&compare = dlsym(library, "exifnorm_compare");
    if (version(text, sizeof text, &written) != EXIFNORM_DONE) return 1;
    if (compare(FIRST, sizeof FIRST - 1, SECOND, sizeof SECOND - 1, &same, &fault) != EXIFNORM_DONE) return 1;
    printf("%s: %s\n", text, same ? "same" : "different");
    return 0;
}
