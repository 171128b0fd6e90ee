/* Many texts by one start of a program that reads t.x: preloaded, it takes texts from the standard input, each behind
 * its length, and has the program's own main read each in a process of its own. It answers a byte for each: 0 where that
 * ends with status 0, 1 with another, 2 where it does not end, and 4 more where it started the C preprocessor, as rpcgen
 * does: where preprocess.c knows what that makes, the program gets it from here. What it prints and says is then in the
 * files printed and said. */
#define _GNU_SOURCE
#include <dlfcn.h>
#include <fcntl.h>
#include <limits.h>
#include <stdint.h>
#include <stdlib.h>
#include <string.h>
#include <sys/mman.h>
#include <sys/resource.h>
#include <sys/wait.h>
#include <unistd.h>
enum { ROOM = 1 << 18, PIPE = 1 << 15, SECONDS = 2, MADE_HERE = INT_MAX };
typedef int (*main_of)(int, char **, char **);
static main_of its_main;
static char **words, text[ROOM + 3], made[PIPE];
static int ends[2], is_text, is_refused;
static volatile char *ran;
long preprocess(const char *, char *const[], char *, size_t);
static void *next(const char *name) { return dlsym(RTLD_NEXT, name); }
int pipe(int both[2]) {
    int failed = pipe2(both, 0);
    ends[0] = both[0], ends[1] = both[1];
    return failed;
}
/* Where rpcgen would start the preprocessor: what that would write is in its pipe already, if it is known. */
pid_t fork(void) {
    long length = is_text ? preprocess(text + 1, words, made, PIPE) : -1;
    is_refused = length == -2;
    if (is_refused || (length >= 0 && write(ends[1], made, length) == length)) return MADE_HERE;
    *ran = 4;
    return ((pid_t(*)(void))next("fork"))();
}
pid_t waitpid(pid_t process, int *status, int options) {
    if (process != MADE_HERE) return ((pid_t(*)(pid_t, int *, int))next("waitpid"))(process, status, options);
    *status = is_refused << 8;
    return process;
}
static int is_whole(char *into, size_t count) {
    for (ssize_t got; count > 0; into += got, count -= got) if ((got = read(0, into, count)) <= 0) return 0;
    return 1;
}
static void put(const char *name, const char *bytes, size_t count) {
    int file = open(name, O_WRONLY | O_CREAT | O_TRUNC, 0666);
    if (file < 0 || write(file, bytes, count) != (ssize_t)count || close(file)) exit(3);
}
static void onto(int to, const char *name, int how) {
    int file = open(name, how, 0666);
    if (file < 0 || dup2(file, to) < 0 || close(file)) exit(3);
}
static void read_by_program(int argc, char **argv, char **environment) {
    struct rlimit most = { SECONDS, SECONDS };
    setrlimit(RLIMIT_CPU, &most);
    onto(0, "/dev/null", O_RDONLY);
    onto(1, "printed", O_WRONLY | O_CREAT | O_TRUNC);
    onto(2, "said", O_WRONLY | O_CREAT | O_TRUNC);
    exit(its_main(argc, argv, environment));
}
static int served(int argc, char **argv, char **environment) {
    uint32_t count;
    /* (not into what the program starts) */
    unsetenv("LD_PRELOAD");
    words = argv;
    text[0] = '\n';
    ran = mmap(NULL, 1, PROT_READ | PROT_WRITE, MAP_SHARED | MAP_ANONYMOUS, -1, 0);
    if (ran == MAP_FAILED) return 3;
    while (is_whole((char *)&count, 4)) {
        int status;
        if (count > ROOM || !is_whole(text + 1, count)) return 3;
        put("t.x", text + 1, count);
        /* A last line without an end gets one from the preprocessor. */
        if (text[count] != '\n') text[++count] = '\n';
        text[count + 1] = 0;
        is_text = strlen(text + 1) == count;
        *ran = 0;
        pid_t process = ((pid_t(*)(void))next("fork"))();
        if (process == 0) read_by_program(argc, argv, environment);
        if (process < 0 || waitpid(process, &status, 0) != process) return 3;
        char answer = *ran | (WIFSIGNALED(status) ? 2 : WEXITSTATUS(status) != 0);
        if (write(1, &answer, 1) != 1) return 3;
    }
    return 0;
}
int __libc_start_main(main_of its, int argc, char **argv, void (*first)(void), void (*last)(void), void (*end)(void),
                      void *stack) {
    its_main = its;
    int (*start)(main_of, int, char **, void (*)(void), void (*)(void), void (*)(void), void *);
    start = next("__libc_start_main");
    return start(served, argc, argv, first, last, end, stack);
}
