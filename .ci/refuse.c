// Refuses one growth of memory: loaded in front of the C library (LD_PRELOAD), it lets the call of `malloc` or
// `realloc` fail whose number, counted from 1, the variable REFUSED_GROWTH names, and then makes the file that
// REFUSED_FILE names. It includes no header, so that the kit's compiler alone can build it.
void *dlsym(void *handle, const char *name);
char *getenv(const char *name);
long atol(const char *text);
int open(const char *path, int flags, ...);
int close(int file);
int *__errno_location(void);

// What the C library has behind this (RTLD_NEXT), flags of `open` (O_WRONLY, O_CREAT), and an error's number (ENOMEM).
#define BEHIND ((void *)-1L)
#define WRITTEN_ANEW (1 | 0100)
#define NO_MEMORY 12

static long growths;

static int is_refused(void) {
    const char *number = getenv("REFUSED_GROWTH");
    if (!number || __atomic_add_fetch(&growths, 1, __ATOMIC_SEQ_CST) != atol(number)) return 0;
    const char *path = getenv("REFUSED_FILE");
    int file = path ? open(path, WRITTEN_ANEW, 0600) : -1;
    if (file >= 0) close(file);
    *__errno_location() = NO_MEMORY;
    return 1;
}

void *malloc(unsigned long size) {
    static void *(*behind)(unsigned long);
    if (!behind) behind = (void *(*)(unsigned long))dlsym(BEHIND, "malloc");
    return is_refused() ? 0 : behind(size);
}

void *realloc(void *old, unsigned long size) {
    static void *(*behind)(void *, unsigned long);
    if (!behind) behind = (void *(*)(void *, unsigned long))dlsym(BEHIND, "realloc");
    return is_refused() ? 0 : behind(old, size);
}
