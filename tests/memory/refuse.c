/* Loaded before the C library into a program of tests. Once it has asked for REFUSED in its environment, the
   program counts its requests for memory, each `malloc` and `realloc`. At request START and each STEPth from
   there it forks: the copy is refused this one request, and goes on to its end; the program waits for the
   copy, and goes on with the memory. A line "REQUEST STATUS FROM TO" on the descriptor TOLD tells of each
   copy: how it ended, as `waitpid` says it, and which bytes of the file of its standard error are its own.
   START, STEP and TOLD stand in the environment. */
/* Declarations of the C library on 64-bit Linux, since the toolchain's compiler has no headers. */
#define NULL ((void *)0)
#define RTLD_NEXT ((void *)-1L)
enum { SEEK_END = 2 };
typedef __SIZE_TYPE__ size_t;
typedef long off_t, ssize_t;
typedef int pid_t;
extern int snprintf(char *, size_t, const char *, ...);
extern void perror(const char *);
extern int strcmp(const char *, const char *);
extern long atol(const char *);
extern off_t lseek(int, off_t, int);
extern ssize_t write(int, const void *, size_t);
extern pid_t fork(void), waitpid(pid_t, int *, int);
extern unsigned alarm(unsigned);
extern void _exit(int) __attribute__((noreturn));
extern void *dlsym(void *, const char *);

/* A copy is ended after so many seconds. */
enum { SECONDS = 60 };

static long requests, start, step;
static int told, is_begun, is_copy;

static void give_up(const char *what) {
    perror(what);
    _exit(70);
}

static char *found(const char *name) {
    static char *(*next)(const char *);
    if (!next) next = dlsym(RTLD_NEXT, "getenv");
    return next(name);
}

static long of_environment(const char *name) {
    const char *word = found(name);
    return word ? atol(word) : 0;
}

static void begin(void) {
    start = of_environment("START");
    step = of_environment("STEP");
    told = (int)of_environment("TOLD");
    is_begun = 1;
}

static void tell(int status, off_t from) {
    char line[96];
    off_t to = lseek(2, 0, SEEK_END);
    int length = snprintf(line, sizeof line, "%ld %d %ld %ld\n", requests, status, from, to);
    if (write(told, line, length) != length) give_up("telling of a copy");
}

/* Whether this process is a copy that is refused its request. */
static int refuses(void) {
    if (!is_begun || is_copy || ++requests < start || (requests - start) % step) return 0;
    off_t from = lseek(2, 0, SEEK_END);
    pid_t copy = fork();
    if (copy < 0) give_up("fork");
    if (copy == 0) {
        is_copy = 1;
        alarm(SECONDS);
        return 1;
    }
    int status;
    if (waitpid(copy, &status, 0) != copy) give_up("waitpid");
    tell(status, from);
    return 0;
}

char *getenv(const char *name) {
    if (!is_begun && strcmp(name, "REFUSED") == 0) begin();
    return found(name);
}

void *malloc(size_t size) {
    static void *(*next)(size_t);
    if (!next) next = dlsym(RTLD_NEXT, "malloc");
    return refuses() ? NULL : next(size);
}

void *realloc(void *old, size_t size) {
    static void *(*next)(void *, size_t);
    if (!next) next = dlsym(RTLD_NEXT, "realloc");
    return refuses() ? NULL : next(old, size);
}
