/* Refuses chosen allocations, reads, writes and threads of a program, from outside. bench/harness.py builds it as a library that is
   loaded before the program's own. Only the calls that the program itself makes are counted and refused, not those that the C
   library makes for itself. It reads these variables of the environment; a call's number counts from 1.

   REFUSE_ALLOCATION=N   the Nth malloc or realloc answers that there is no memory; with REFUSE_ON=1 each later one, too
   REFUSE_CHANCE=R       each of them does so by a chance of R in a million, drawn from REFUSE_SEED and its number
   REFUSE_THREAD=N       the Nth thread is not started; with REFUSE_THREADS_ON=1 none after it, either
   FAIL_READ=N           the Nth read of standard input fails, with the error FAIL_ERROR; FAIL_WRITE=N likewise for writes
   SHORT_READ=N          the Nth read moves one byte, and each does where N is 0; SHORT_WRITE=N likewise
   COUNTS=FILE           a line with the numbers of calls is written there at the end. `late` counts the allocations that were
                         asked for after the first write. */
#define _GNU_SOURCE
#include <dlfcn.h>
#include <errno.h>
#include <fcntl.h>
#include <link.h>
#include <pthread.h>
#include <stdatomic.h>
#include <stdint.h>
#include <stdio.h>
#include <stdlib.h>
#include <sys/syscall.h>
#include <unistd.h>

extern void *__libc_malloc(size_t);
extern void *__libc_realloc(void *, size_t);

/* What was counted. */
static _Atomic long allocations, refused, reads, writes, threads, unstarted, late;

/* What is wanted. */
static long refuse_allocation, refuse_on, refuse_chance, refuse_seed, refuse_thread, refuse_threads_on;
static long fail_read, fail_write, fail_error, short_read, short_write;
static const char *counts;

/* Where the program lies in memory: a call that comes from elsewhere is not its own. */
static uintptr_t lowest = UINTPTR_MAX, highest;

static long number(const char *name, long otherwise) {
    const char *text = getenv(name);
    return text ? atol(text) : otherwise;
}

/* The program is the first object that is told, and has no name. */
static int find_program(struct dl_phdr_info *object, size_t size, void *unused) {
    (void)size;
    (void)unused;
    for (int i = 0; i < object->dlpi_phnum; i++) {
        const ElfW(Phdr) *part = &object->dlpi_phdr[i];
        uintptr_t first = object->dlpi_addr + part->p_vaddr, end = first + part->p_memsz;
        if (part->p_type != PT_LOAD) continue;
        if (first < lowest) lowest = first;
        if (end > highest) highest = end;
    }
    return 1;
}

__attribute__((constructor)) static void begin(void) {
    refuse_allocation = number("REFUSE_ALLOCATION", 0);
    refuse_on = number("REFUSE_ON", 0);
    refuse_chance = number("REFUSE_CHANCE", 0);
    refuse_seed = number("REFUSE_SEED", 0);
    refuse_thread = number("REFUSE_THREAD", 0);
    refuse_threads_on = number("REFUSE_THREADS_ON", 0);
    fail_read = number("FAIL_READ", 0);
    fail_write = number("FAIL_WRITE", 0);
    fail_error = number("FAIL_ERROR", EIO);
    short_read = number("SHORT_READ", -1);
    short_write = number("SHORT_WRITE", -1);
    counts = getenv("COUNTS");
    dl_iterate_phdr(find_program, 0);
}

static int is_own(const void *caller) { return (uintptr_t)caller >= lowest && (uintptr_t)caller < highest; }

/* Whether a call of this number is the one that is chosen, or comes after it where all those are. */
static int is_chosen(long call, long chosen, long on) { return chosen && (call == chosen || (on && call > chosen)); }

/* Whether chance chooses this number: its bits, mixed with those of the seed. */
static int is_drawn(long call) {
    uint64_t mixed = ((uint64_t)call + (uint64_t)refuse_seed * 1000003u) * 0x9E3779B97F4A7C15u;
    mixed ^= mixed >> 29;
    mixed *= 0xBF58476D1CE4E5B9u;
    mixed ^= mixed >> 32;
    return (long)(mixed % 1000000u) < refuse_chance;
}

static int is_refused(void) {
    long call = atomic_fetch_add(&allocations, 1) + 1;
    if (atomic_load(&writes)) atomic_fetch_add(&late, 1);
    if (!is_chosen(call, refuse_allocation, refuse_on) && !is_drawn(call)) return 0;
    atomic_fetch_add(&refused, 1);
    errno = ENOMEM;
    return 1;
}

void *malloc(size_t size) {
    return is_own(__builtin_return_address(0)) && is_refused() ? 0 : __libc_malloc(size);
}

void *realloc(void *old, size_t size) {
    return is_own(__builtin_return_address(0)) && is_refused() ? 0 : __libc_realloc(old, size);
}

/* How many bytes a call of this number moves of those that it may, or -1 where it fails. */
static ssize_t moved(long call, size_t size, long failing, long shortened) {
    if (call == failing) {
        errno = (int)fail_error;
        return -1;
    }
    return (ssize_t)((call == shortened || shortened == 0) && size > 1 ? 1 : size);
}

ssize_t read(int from, void *to, size_t size) {
    ssize_t most = from == 0 && is_own(__builtin_return_address(0)) ? moved(atomic_fetch_add(&reads, 1) + 1, size, fail_read, short_read) : (ssize_t)size;
    return most < 0 ? -1 : syscall(SYS_read, from, to, (size_t)most);
}

ssize_t write(int to, const void *from, size_t size) {
    ssize_t most = is_own(__builtin_return_address(0)) ? moved(atomic_fetch_add(&writes, 1) + 1, size, fail_write, short_write) : (ssize_t)size;
    return most < 0 ? -1 : syscall(SYS_write, to, from, (size_t)most);
}

typedef int starts_thread(pthread_t *, const pthread_attr_t *, void *(*)(void *), void *);

int pthread_create(pthread_t *thread, const pthread_attr_t *attributes, void *(*run)(void *), void *given) {
    starts_thread *real = (starts_thread *)dlsym(RTLD_NEXT, "pthread_create");
    if (is_chosen(atomic_fetch_add(&threads, 1) + 1, refuse_thread, refuse_threads_on)) {
        atomic_fetch_add(&unstarted, 1);
        return EAGAIN;
    }
    return real(thread, attributes, run, given);
}

static void tell(void) {
    char line[256];
    if (!counts) return;
    int size = snprintf(line, sizeof line, "allocations=%ld refused=%ld reads=%ld writes=%ld threads=%ld unstarted=%ld late=%ld\n",
                        atomic_load(&allocations), atomic_load(&refused), atomic_load(&reads), atomic_load(&writes),
                        atomic_load(&threads), atomic_load(&unstarted), atomic_load(&late));
    int file = open(counts, O_WRONLY | O_CREAT | O_TRUNC, 0600);
    if (file >= 0) {
        syscall(SYS_write, file, line, (size_t)size);
        close(file);
    }
    counts = 0;
}

void _exit(int status) {
    tell();
    syscall(SYS_exit_group, status);
    __builtin_unreachable();
}

__attribute__((destructor)) static void end(void) { tell(); }
