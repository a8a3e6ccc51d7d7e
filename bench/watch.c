// Runs a program and watches words of its table of the heap by the processor's debug registers: Linux on x86-64.
//
//   watch phases POOLS PROGRAM WORD..         prints on standard error, for each sequence of phases that a pause had, how
//                                             many such pauses there were, and how long the longest took
//   watch words POOLS MINOR                   reads what `valgrind --tool=lackey --trace-mem=yes` says of a run of one domain,
//                                             and prints which pause looks at the most words of the table, and how often
//   watch window POOLS FIRST PROGRAM WORD..   stops a domain for a while each few times that it has used one of four fields
//                                             of the shared block, from the field FIRST on, and prints how often this was
//                                             behind the load of a field and before the store to it, while a collection
//                                             goes on beside the domains
//
// The program must be `camlheap run` with these pools. A stop takes up to HOLD microseconds, and comes with one of EVERY uses.
#define _GNU_SOURCE
#include <errno.h>
#include <signal.h>
#include <stddef.h>
#include <stdint.h>
#include <stdio.h>
#include <stdlib.h>
#include <string.h>
#include <sys/ptrace.h>
#include <sys/uio.h>
#include <sys/user.h>
#include <sys/wait.h>
#include <time.h>
#include <unistd.h>

enum { BARRIER = 1, PLAN = 2, ARMED = 4, LIST = 11, FIELDS = 4, THREADS = 16, LONGEST = 64, KINDS = 64, RUNS = 16 };

static const char *const NAMES[] = {"Run", "Promote", "Reset", "Roots", "Mark", "Rounds", "Decide", "Queued", "Clean", "Lasts", "Sweep", "Answer"};

// A thread that is traced: when it goes on, and its last use of each field that is watched.
struct thread {
    pid_t id;
    double until;
    struct {
        int held;
        uint64_t phase;
    } read[FIELDS];
};

static int window, pools, domains = 2, first;
static pid_t program;
static uint64_t table;
static struct thread threads[THREADS];
static long uses, stops, windows;
static double hold = 500;
static long every = 3;

// The sequences of phases so far, and the one that goes on.
static struct {
    char phases[LONGEST];
    long pauses;
    double longest;
} kinds[KINDS];
static char phases[LONGEST];
static double begun;

static double now(void) {
    struct timespec t;
    clock_gettime(CLOCK_MONOTONIC, &t);
    return t.tv_sec * 1e6 + t.tv_nsec / 1e3;
}

static void die(const char *what) {
    fprintf(stderr, "watch: %s: %s\n", what, strerror(errno));
    if (program) kill(program, SIGKILL);
    exit(70);
}

static int read_at(uint64_t at, void *into, size_t length) {
    struct iovec here = {into, length}, there = {(void *)at, length};
    return process_vm_readv(program, &here, 1, &there, 1, 0) == (ssize_t)length;
}

static uint64_t word(uint64_t index) {
    uint64_t value = 0;
    read_at(table + 8 * index, &value, 8);
    return value;
}

// Where the table lies: the list of free pools in it is 1, 2, 3 and so on at the start.
static uint64_t find_table(void) {
    char line[512], path[64];
    uint64_t found = 0, words[1024];
    snprintf(path, sizeof path, "/proc/%d/maps", program);
    FILE *maps = fopen(path, "r");
    if (!maps) die("maps");
    while (fgets(line, sizeof line, maps)) {
        uint64_t from, to;
        char rights[8];
        if (sscanf(line, "%lx-%lx %7s", &from, &to, rights) != 3 || rights[1] != 'w') continue;
        if (to - from < (uint64_t)pools * 4096 * 8 || !read_at(from, words, sizeof words)) continue;
        for (int i = LIST; i + 8 < 1024 - LIST; i++) {
            int k = 0;
            while (k < 8 && words[i + k] == (uint64_t)k + 1) k++;
            if (k == 8) found = from + 8 * (i - LIST);
        }
    }
    fclose(maps);
    return found;
}

static void poke(pid_t thread, int number, uint64_t value) {
    if (ptrace(PTRACE_POKEUSER, thread, offsetof(struct user, u_debugreg[number]), value)) die("debug registers");
}

// Watches stores to the plan word, or all uses of the fields.
static void watch(pid_t thread) {
    uint64_t control = 0;
    int words = window ? FIELDS : 1;
    poke(thread, 7, 0);
    for (int i = 0; i < words; i++) {
        uint64_t index = window ? 10 + 2 * (uint64_t)pools + 3 + first + i : PLAN;
        poke(thread, i, table + 8 * index);
        control |= 1ull << (2 * i) | (window ? 15ull : 13ull) << (16 + 4 * i);
    }
    poke(thread, 7, control);
}

// Whether the instruction that ends at an address stores a 64-bit word: an exchange or a move with a register.
static int is_store(uint64_t end) {
    unsigned char code[8];
    if (!read_at(end - sizeof code, code, sizeof code)) return 0;
    for (int length = 3; length <= 8; length++) {
        const unsigned char *at = code + sizeof code - length;
        if ((at[0] & 0xf8) != 0x48 || (at[1] != 0x87 && at[1] != 0x89)) continue;
        int mod = at[2] >> 6, low = at[2] & 7;
        int wanted = 3 + (mod != 3 && low == 4) + (mod == 1) + (mod == 2 ? 4 : 0) + (mod == 0 && low == 5 ? 4 : 0);
        if (mod != 3 && wanted == length) return 1;
    }
    return 0;
}

static struct thread *thread_of(pid_t id) {
    for (int i = 0; i < THREADS; i++) {
        if (threads[i].id == id) return &threads[i];
    }
    for (int i = 0; i < THREADS; i++) {
        if (!threads[i].id) {
            memset(&threads[i], 0, sizeof threads[i]);
            threads[i].id = id;
            return &threads[i];
        }
    }
    die("too many threads");
    return NULL;
}

// A use of a watched field. Answers whether the thread is to stop.
static int use(struct thread *thread, int field, uint64_t end) {
    uint64_t armed = word(ARMED), phase = word(BARRIER) / domains;
    uses++;
    if (is_store(end)) {
        windows += armed == 1 && thread->read[field].held && thread->read[field].phase == phase;
        thread->read[field].held = 0;
        return 0;
    }
    int holds = rand() % every == 0;
    thread->read[field].held = holds && armed == 1;
    thread->read[field].phase = phase;
    stops += holds;
    return holds;
}

// A store to the plan word.
static void plan(void) {
    uint64_t kind = word(PLAN);
    double time = now();
    size_t length = strlen(phases);
    if (length == 0) begun = time;
    if (length + 1 < LONGEST) phases[length] = 'a' + (char)kind;
    if (kind != 0) return;
    for (int i = 0; i < KINDS; i++) {
        if (kinds[i].pauses && strcmp(kinds[i].phases, phases)) continue;
        strcpy(kinds[i].phases, phases);
        kinds[i].pauses++;
        if (time - begun > kinds[i].longest) kinds[i].longest = time - begun;
        break;
    }
    memset(phases, 0, sizeof phases);
}

// What a stop by a debug register asks for.
static void watched(struct thread *thread) {
    struct user_regs_struct registers;
    uint64_t hit = ptrace(PTRACE_PEEKUSER, thread->id, offsetof(struct user, u_debugreg[6]), 0);
    poke(thread->id, 6, 0);
    if (!window) {
        plan();
        return;
    }
    if (ptrace(PTRACE_GETREGS, thread->id, 0, &registers)) die("registers");
    for (int field = 0; field < FIELDS; field++) {
        if (hit & 1ull << field && use(thread, field, registers.rip)) thread->until = now() + rand() % (long)(hold + 1);
    }
}

// Lets the threads go on whose time has come. Answers whether one still waits.
static int release(int how) {
    int waits = 0;
    double time = now();
    for (int i = 0; i < THREADS; i++) {
        if (threads[i].until == 0) continue;
        if (threads[i].until > time) waits = 1;
        else {
            threads[i].until = 0;
            ptrace(how, threads[i].id, 0, 0);
        }
    }
    return waits;
}

static void tell(void) {
    if (window) fprintf(stderr, "uses %ld stops %ld windows %ld\n", uses, stops, windows);
    for (int i = 0; !window && i < KINDS && kinds[i].pauses; i++) {
        fprintf(stderr, "%ld pauses of %zu phases, the longest %.3f ms:", kinds[i].pauses, strlen(kinds[i].phases), kinds[i].longest / 1e3);
        for (const char *at = kinds[i].phases; *at; at++) fprintf(stderr, " %s", *at - 'a' < 12 ? NAMES[*at - 'a'] : "?");
        fprintf(stderr, "\n");
    }
}

// The accesses of a run of one domain, one a line: the table is the last large piece of memory that is written from its start to
// its end, with few other stores between. In a pause the want word is cleared before the phase Run is named, which is its last store to the plan word.
static int count_words(int minor) {
    char line[256], *rest;
    uint64_t starts[RUNS] = {0}, ends[RUNS] = {0}, table_end = 0, bytes = 8 * (LIST + 2 * pools + 4096 * (uint64_t)pools + minor);
    long used[RUNS] = {0}, time = 0, looks = 0, stores = 0, phase = 0, most = 0, kept[3] = {0};
    int pauses = 0, cleared = 0;
    while (fgets(line, sizeof line, stdin)) {
        char what = line[1];
        if (line[0] != ' ' || (what != 'L' && what != 'S' && what != 'M')) continue;
        uint64_t at = strtoull(line + 3, &rest, 16), size = strtoull(rest + 1, NULL, 10);
        if (what == 'S') {
            int run = 0;
            while (run < RUNS && ends[run] != at) run++;
            if (run == RUNS) {
                run = 0;
                for (int i = 1; i < RUNS; i++) {
                    if (used[i] < used[run]) run = i;
                }
                starts[run] = at;
            }
            ends[run] = at + size;
            used[run] = ++time;
            if (ends[run] - starts[run] >= bytes) table_end = ends[run], table = table_end - bytes, pauses = 0, most = 0, phase = 0;
        }
        if (at < table || at >= table_end) continue;
        looks += what != 'S';
        stores += what != 'L';
        if (what != 'L' && at == table) cleared = 1;
        if (what == 'L' || at != table + 8 * PLAN) continue;
        if (phase++ == 0) looks = stores = cleared = 0;
        if (!cleared) continue;
        pauses++;
        if (looks > most) most = looks, kept[0] = phase, kept[1] = looks, kept[2] = stores;
        phase = 0;
    }
    printf("of %d pauses the one of %ld phases looks at the most words: %ld times, and stores %ld times\n", pauses, kept[0], kept[1], kept[2]);
    return pauses ? 0 : 1;
}

int main(int count, char **words) {
    int status, found = 0, how = PTRACE_SYSCALL;
    window = count > 1 && !strcmp(words[1], "window");
    if (count < 4) return 64;
    pools = atoi(words[2]);
    if (!strcmp(words[1], "words")) return count_words(atoi(words[3]));
    if (window) first = atoi(words[3]);
    char **run = words + (window ? 4 : 3);
    for (char **at = run; at[0] && at[1]; at++) {
        if (!strcmp(at[0], "--domains")) domains = atoi(at[1]);
    }
    if (getenv("HOLD")) hold = atof(getenv("HOLD"));
    if (getenv("EVERY")) every = atol(getenv("EVERY"));
    srand((unsigned)now());
    program = fork();
    if (program < 0) die("fork");
    if (program == 0) {
        ptrace(PTRACE_TRACEME, 0, 0, 0);
        raise(SIGSTOP);
        execv(run[0], run);
        _exit(127);
    }
    waitpid(program, &status, 0);
    if (ptrace(PTRACE_SETOPTIONS, program, 0, PTRACE_O_TRACECLONE | PTRACE_O_TRACESYSGOOD | PTRACE_O_EXITKILL)) die("options");
    thread_of(program);
    ptrace(how, program, 0, 0);
    for (;;) {
        int waits = release(how);
        pid_t id = waitpid(-1, &status, __WALL | (waits ? WNOHANG : 0));
        if (id < 0) die("wait");
        if (id == 0) {
            usleep(20);
            continue;
        }
        if (WIFEXITED(status) || WIFSIGNALED(status)) {
            if (id == program) {
                tell();
                return WIFEXITED(status) ? WEXITSTATUS(status) : 128 + WTERMSIG(status);
            }
            thread_of(id)->id = 0;
            continue;
        }
        int signal = WSTOPSIG(status), known = 0, pass = 0;
        for (int i = 0; i < THREADS; i++) known |= threads[i].id == id;
        struct thread *thread = thread_of(id);
        if (signal == (SIGTRAP | 0x80) || status >> 16 || (!known && signal == SIGSTOP)) {
            // A system call, a new thread, or its first stop: the table may have been made, or moved.
            uint64_t at = found ? table : find_table();
            if (at) {
                table = at;
                watch(id);
            }
            if (status >> 8 == (SIGTRAP | PTRACE_EVENT_CLONE << 8)) found = 1, how = PTRACE_CONT;
        } else if (signal == SIGTRAP) {
            siginfo_t about;
            if (!ptrace(PTRACE_GETSIGINFO, id, 0, &about) && about.si_code == TRAP_HWBKPT) {
                how = PTRACE_CONT;
                watched(thread);
            }
        } else pass = signal;
        if (thread->until == 0 && ptrace(how, id, 0, pass) && errno != ESRCH) die("go on");
    }
}
