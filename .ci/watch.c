/* Laid before a program by LD_PRELOAD: counts its requests for memory, and may refuse one of them.
   REFUSED is the number of that request, counted from 1. TOLD names a file that is told at the end how many
   requests were granted, how many regions were given back, and how many bytes those requests were for. */

extern void *__libc_malloc(unsigned long);
extern void *__libc_calloc(unsigned long, unsigned long);
extern void *__libc_realloc(void *, unsigned long);
extern void *__libc_memalign(unsigned long, unsigned long);
extern void __libc_free(void *);
extern char *getenv(const char *);
extern long atol(const char *);
extern int creat(const char *, unsigned);
extern int dprintf(int, const char *, ...);

static unsigned long asked, granted, given_back, bytes;

/* Whether this request is refused. */
static int refused(void) {
    const char *number = getenv("REFUSED");
    return ++asked == (number ? atol(number) : 0);
}

static void *counted(void *region, unsigned long size) {
    if (region) {
        granted++;
        bytes += size;
    }
    return region;
}

void *malloc(unsigned long size) { return refused() ? 0 : counted(__libc_malloc(size), size); }

void *calloc(unsigned long count, unsigned long size) {
    return refused() ? 0 : counted(__libc_calloc(count, size), count * size);
}

void *aligned_alloc(unsigned long alignment, unsigned long size) {
    return refused() ? 0 : counted(__libc_memalign(alignment, size), size);
}

void *memalign(unsigned long alignment, unsigned long size) { return aligned_alloc(alignment, size); }

int posix_memalign(void **region, unsigned long alignment, unsigned long size) {
    void *taken = aligned_alloc(alignment, size);
    if (!taken)
        return 12;
    *region = taken;
    return 0;
}

/* A region that grows is a new one, and the old one is given back. */
void *realloc(void *old, unsigned long size) {
    void *region = refused() ? 0 : counted(__libc_realloc(old, size), size);
    if (old && region)
        given_back++;
    return region;
}

void free(void *region) {
    if (region)
        given_back++;
    __libc_free(region);
}

__attribute__((destructor)) static void tell(void) {
    const char *file = getenv("TOLD");
    if (file)
        dprintf(creat(file, 0644), "%lu %lu %lu\n", granted, given_back, bytes);
}
