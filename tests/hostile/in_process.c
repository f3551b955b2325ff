/* Tries the program that it is loaded into (LD_PRELOAD) on millions of cases in one process: for each its `main` is called, with files, standard input and output,
   and memory that stand in this library. What the program keeps in its own variables is put back before each call.

   Of the words that it is called by, 'case' is the case's file, 'twin' the case changed a little, 'made' a file that is not there, and each other file is read once
   at the start. Where no word is 'case', the case is standard input.

   HOSTILE_SEED, HOSTILE_KIND, HOSTILE_FIRST, HOSTILE_STEP, HOSTILE_LAST   which cases: from the first, each step, below the last (generator.h)
   HOSTILE_SOUND      paths of the sound texts of that kind, separated by ':'
   HOSTILE_INPUT      the path of standard input, where the case is not
   HOSTILE_REFUSALS   the numbers by which a text of that kind may be refused, separated by ','
   HOSTILE_PROGRESS   a file of 8 bytes that holds the number of the case under way
   HOSTILE_FAILURES   where it is set each case is tried once more, with a failure: a request for memory refused, or a read or a write that fails
   HOSTILE_TELL       where it is set each answer is told

   It writes: 'told N STATUS ERRORS BYTES CRC MADE' if asked; 'wrong N WHY'; and at the end 'answers WHAT COUNT', 'failures WHAT COUNT', 'cases COUNT',
   'slowest MICROSECONDS N', 'largest BYTES N'.
*/
#define _GNU_SOURCE
#include "generator.h"
#include <dlfcn.h>
#include <errno.h>
#include <fcntl.h>
#include <link.h>
#include <setjmp.h>
#include <signal.h>
#include <stdarg.h>
#include <stdio.h>
#include <stdlib.h>
#include <string.h>
#include <sys/mman.h>
#include <sys/stat.h>
#include <sys/syscall.h>
#include <sys/time.h>
#include <time.h>
#include <unistd.h>

extern void *__libc_malloc(size_t);
extern void *__libc_calloc(size_t, size_t);
extern void *__libc_realloc(void *, size_t);
extern void *__libc_memalign(size_t, size_t);
extern void __libc_free(void *);

typedef int program_main(int, char **, char **);

enum {
    MOST_FILES = 8, FIRST_FILE = 1000, MADE_FILE = 1100, MOST_SOUND = 256, MOST_ERRORS = 256, MOST_OUT = 16 << 20, MOST_SECONDS = 10, NEVER = -1,
    STATUS_DONE = 0, STATUS_REFUSED = 1, STATUS_FAILED = 3, MOST_WRONG = 20
};
/* The most memory that a call may have at once: so much, and so much for each byte of its case. */
static const size_t MOST_MEMORY = 1 << 20, MEMORY_PER_BYTE = 64, ARENA_BYTES = (size_t)1 << 30;

enum failure { NONE, NO_MEMORY, NO_READ, NO_WRITE, FAILURES };
static const char *const FAILURE_NAMES[] = {"none", "memory", "read", "write"};
static const char *const FAILURE_LINES[] = {"", "agcws: E2\n", "agcws: E6\n", "agcws: E7\n"};

struct file {
    const char *path;
    const unsigned char *bytes;
    size_t length, at;
};

/* What a call has written, how it ended, and what it asked for. */
struct outcome {
    int status, is_made;
    unsigned char *out, *made;
    size_t out_length, made_length, error_length, memory, asked[FAILURES];
    char errors[MOST_ERRORS + 1];
};

/* The call under way. */
static struct {
    int is_under_way;
    struct outcome *outcome;
    struct file files[MOST_FILES], standard_input;
    size_t file_count, most_read, most_written;
    enum failure failure;
    size_t fails_at;
    jmp_buf ended;
} call;

static struct {
    unsigned char *start, *at, *high, *last;
    size_t live, most;
} arena;

static program_main *program;
static struct {
    unsigned char *start, *kept;
    size_t length;
} variables[8];
static size_t variable_count;
static volatile uint64_t *progress;

/* Memory: a request takes the next part of the arena, which is emptied between calls. The size stands before each part. */

static int fails(enum failure failure)
{
    return ++call.outcome->asked[failure] == call.fails_at && call.failure == failure;
}

static size_t *size_of(void *part)
{
    return (size_t *)part - 1;
}

static int is_ours(const void *part)
{
    return (const unsigned char *)part >= arena.start && (const unsigned char *)part < arena.start + ARENA_BYTES;
}

static void count_live(size_t more, size_t less)
{
    arena.live += more - less;
    if (arena.live > arena.most) arena.most = arena.live;
}

static void *take(size_t alignment, size_t size)
{
    unsigned char *part = arena.at + sizeof(size_t);
    if (alignment < 16) alignment = 16;
    part += -(uintptr_t)part & (alignment - 1);
    if (size > ARENA_BYTES || part + size > arena.start + ARENA_BYTES || fails(NO_MEMORY)) {
        errno = ENOMEM;
        return NULL;
    }
    arena.last = part;
    arena.at = part + size;
    if (arena.at > arena.high) arena.high = arena.at;
    *size_of(part) = size;
    count_live(size, 0);
    return part;
}

void *malloc(size_t size)
{
    return call.is_under_way ? take(16, size) : __libc_malloc(size);
}

void *calloc(size_t count, size_t size)
{
    size_t whole;
    if (!call.is_under_way) return __libc_calloc(count, size);
    if (__builtin_mul_overflow(count, size, &whole)) return NULL;
    void *part = take(16, whole);
    return part ? memset(part, 0, whole) : NULL;
}

void free(void *part)
{
    if (!part) return;
    if (!is_ours(part)) {
        __libc_free(part);
        return;
    }
    count_live(0, *size_of(part));
}

void *realloc(void *old, size_t size)
{
    if (old ? !is_ours(old) : !call.is_under_way) return __libc_realloc(old, size);
    if (!old) return take(16, size);
    size_t before = *size_of(old);
    if (old == arena.last && (unsigned char *)old + size <= arena.start + ARENA_BYTES && size <= ARENA_BYTES) {
        if (fails(NO_MEMORY)) return NULL;
        arena.at = (unsigned char *)old + size;
        if (arena.at > arena.high) arena.high = arena.at;
        *size_of(old) = size;
        count_live(size, before);
        return old;
    }
    void *part = take(16, size);
    if (!part) return NULL;
    memcpy(part, old, before < size ? before : size);
    free(old);
    return part;
}

void *memalign(size_t alignment, size_t size)
{
    return call.is_under_way ? take(alignment, size) : __libc_memalign(alignment, size);
}

void *aligned_alloc(size_t alignment, size_t size)
{
    return memalign(alignment, size);
}

int posix_memalign(void **result, size_t alignment, size_t size)
{
    void *part = memalign(alignment, size);
    if (!part) return ENOMEM;
    *result = part;
    return 0;
}

/* Devices */

/* The file that a call makes, which stands under the first name until it is whole. */
static const char *const DRAFT = "made.part0", *const MADE = "made";

/* The number of a file that is there, or -1. */
static int find_file(const char *path)
{
    for (size_t number = 0; number < call.file_count; number++) {
        if (strcmp(path, call.files[number].path) == 0) return (int)number;
    }
    errno = ENOENT;
    return -1;
}

static int open_file(const char *path, int flags)
{
    if (strcmp(path, DRAFT) == 0 && flags & O_CREAT) return MADE_FILE;
    int number = find_file(path);
    if (number < 0) return -1;
    /* (no file is open twice at a time) */
    call.files[number].at = 0;
    return FIRST_FILE + number;
}

int rename(const char *from, const char *to)
{
    if (!call.is_under_way) return (int)syscall(SYS_rename, from, to);
    if (strcmp(from, DRAFT) != 0 || strcmp(to, MADE) != 0) {
        errno = ENOENT;
        return -1;
    }
    call.outcome->is_made = 1;
    return 0;
}

int unlink(const char *path)
{
    if (!call.is_under_way) return (int)syscall(SYS_unlink, path);
    if (strcmp(path, DRAFT) == 0) call.outcome->made_length = 0;
    return 0;
}

int statx(int folder, const char *path, int flags, unsigned mask, struct statx *found)
{
    if (!call.is_under_way) return (int)syscall(SYS_statx, folder, path, flags, mask, found);
    int number = find_file(path);
    if (number < 0) return -1;
    memset(found, 0, sizeof *found);
    found->stx_mode = S_IFREG | 0644;
    found->stx_nlink = 1;
    found->stx_ino = (unsigned)number + 1;
    return 0;
}

int open(const char *path, int flags, ...)
{
    va_list more;
    va_start(more, flags);
    int mode = va_arg(more, int);
    va_end(more);
    return call.is_under_way ? open_file(path, flags) : (int)syscall(SYS_openat, AT_FDCWD, path, flags, mode);
}

int openat(int folder, const char *path, int flags, ...)
{
    va_list more;
    va_start(more, flags);
    int mode = va_arg(more, int);
    va_end(more);
    return call.is_under_way ? open_file(path, flags) : (int)syscall(SYS_openat, folder, path, flags, mode);
}

int close(int descriptor)
{
    return call.is_under_way ? 0 : (int)syscall(SYS_close, descriptor);
}

ssize_t read(int descriptor, void *into, size_t count)
{
    if (!call.is_under_way) return syscall(SYS_read, descriptor, into, count);
    struct file *file = descriptor == 0 ? &call.standard_input : &call.files[descriptor - FIRST_FILE];
    if (descriptor != 0 && (descriptor < FIRST_FILE || descriptor >= FIRST_FILE + (int)call.file_count)) {
        errno = EBADF;
        return -1;
    }
    if (fails(NO_READ)) {
        errno = EIO;
        return -1;
    }
    if (count > file->length - file->at) count = file->length - file->at;
    if (count > call.most_read) count = call.most_read;
    memcpy(into, file->bytes + file->at, count);
    file->at += count;
    return (ssize_t)count;
}

static void keep(unsigned char *kept, size_t *length, size_t most, const void *bytes, size_t count)
{
    if (count <= most - *length) memcpy(kept + *length, bytes, count);
    *length += count <= most - *length ? count : 0;
}

ssize_t write(int descriptor, const void *bytes, size_t count)
{
    struct outcome *to = call.outcome;
    if (!call.is_under_way) return syscall(SYS_write, descriptor, bytes, count);
    if (descriptor == 2) {
        keep((unsigned char *)to->errors, &to->error_length, MOST_ERRORS, bytes, count);
        return (ssize_t)count;
    }
    if (descriptor != 1 && descriptor != MADE_FILE) {
        errno = EBADF;
        return -1;
    }
    if (fails(NO_WRITE)) {
        errno = ENOSPC;
        return call.fails_at % 2 ? -1 : 0;
    }
    if (count > call.most_written) count = call.most_written;
    if (descriptor == 1) keep(to->out, &to->out_length, MOST_OUT, bytes, count);
    else keep(to->made, &to->made_length, MOST_OUT, bytes, count);
    return (ssize_t)count;
}

ssize_t __write(int descriptor, const void *bytes, size_t count)
{
    return write(descriptor, bytes, count);
}

/* The program's end, where it does not return from `main`. */
void exit(int status)
{
    if (!call.is_under_way) {
        fflush(stdout);
        _exit(status);
    }
    longjmp(call.ended, status + 1);
}

/* What the program keeps in its variables */

static int find_variables(struct dl_phdr_info *object, size_t size, void *data)
{
    (void)size, (void)data;
    uintptr_t fixed_start = 0, fixed_end = 0;
    for (int at = 0; at < object->dlpi_phnum; at++) {
        if (object->dlpi_phdr[at].p_type == PT_GNU_RELRO) {
            fixed_start = object->dlpi_addr + object->dlpi_phdr[at].p_vaddr;
            fixed_end = (fixed_start + object->dlpi_phdr[at].p_memsz + 4095) & ~(uintptr_t)4095;
        }
    }
    for (int at = 0; at < object->dlpi_phnum; at++) {
        const ElfW(Phdr) *part = &object->dlpi_phdr[at];
        uintptr_t start = object->dlpi_addr + part->p_vaddr, end = start + part->p_memsz;
        if (part->p_type != PT_LOAD || !(part->p_flags & PF_W)) continue;
        if (start >= fixed_start && start < fixed_end) start = fixed_end;
        if (start >= end) continue;
        variables[variable_count].start = (unsigned char *)start;
        variables[variable_count].length = end - start;
        variables[variable_count].kept = memcpy(__libc_malloc(end - start), (void *)start, end - start);
        variable_count++;
    }
    return 1; /* the first object is the program */
}

static void put_variables_back(void)
{
    for (size_t number = 0; number < variable_count; number++) {
        if (memcmp(variables[number].start, variables[number].kept, variables[number].length) != 0) memcpy(variables[number].start, variables[number].kept, variables[number].length);
    }
}

/* A call, with a failure or none. */
static void make_call(int count, char **words, char **environment, struct outcome *outcome, enum failure failure, size_t fails_at)
{
    unsigned char *out = outcome->out, *made = outcome->made;
    memset(outcome, 0, sizeof *outcome);
    outcome->out = out;
    outcome->made = made;
    for (size_t number = 0; number < call.file_count; number++) call.files[number].at = 0;
    call.standard_input.at = 0;
    call.outcome = outcome;
    call.failure = failure;
    call.fails_at = fails_at;
    arena.at = arena.start;
    arena.last = NULL;
    arena.live = arena.most = 0;
    put_variables_back();
    int ended = setjmp(call.ended);
    if (ended == 0) {
        call.is_under_way = 1;
        outcome->status = program(count, words, environment);
    } else {
        outcome->status = ended - 1;
    }
    call.is_under_way = 0;
    outcome->memory = arena.most;
    if (arena.high > arena.start + (64 << 20)) {
        madvise(arena.start, ARENA_BYTES, MADV_DONTNEED);
        arena.high = arena.start;
    }
}

/* Judging */

static const char *command;
static int image_version, has_end, has_bank, has_case, has_twin;
static uint64_t allowed;

static int has_option(int count, char **words, const char *option)
{
    for (int at = 1; at < count; at++) {
        if (strcmp(words[at], option) == 0) return 1;
    }
    return 0;
}

static int is_octal(const unsigned char *bytes, size_t length)
{
    for (size_t at = 0; at < length; at++) {
        if (bytes[at] < '0' || bytes[at] > '7') return 0;
    }
    return length > 0;
}

/* CYCLES CH ooo ooooo */
static int is_channel_line(const unsigned char *line, size_t length)
{
    size_t digits = 0;
    while (digits < length && line[digits] >= '0' && line[digits] <= '9') digits++;
    return digits > 0 && length == digits + 13 && memcmp(line + digits, " CH ", 4) == 0 && is_octal(line + digits + 4, 3) && line[digits + 7] == ' ' && is_octal(line + digits + 8, 5);
}

static int is_reply(const unsigned char *line, size_t length)
{
    static const char *const whole[] = {"NONE", "CLEAR", "ADDED", "E17 UNDEFINED", "E32 TOO MANY", "E33 COUNTER", "E41 NOT YET", "E42 TOO EARLY", "E50 COMMAND", "E51 LONG", "E52 FULL"};
    static const char *const begun[] = {"AT ", "HIT ", "BREAK ", "A ", "NEXT ", "MEM ", "CHAN ", "LAST ", "SYM ", "COUNT ", "TAIL "};
    for (size_t at = 0; at < sizeof whole / sizeof whole[0]; at++) {
        if (length == strlen(whole[at]) && memcmp(line, whole[at], length) == 0) return 1;
    }
    for (size_t at = 0; at < sizeof begun / sizeof begun[0]; at++) {
        if (length > strlen(begun[at]) && memcmp(line, begun[at], strlen(begun[at])) == 0) return 1;
    }
    return (length == 4 && is_octal(line, 4)) || is_channel_line(line, length);
}

/* The form of replies: of an extended session any line is one, since it says what `echo` is given. */
static int (*reply_form)(const unsigned char *, size_t) = is_reply;

/* How many lines an output has, or NEVER where one is not of its form. */
static long lines_of(const struct outcome *outcome, int is_form(const unsigned char *, size_t))
{
    long lines = 0;
    for (size_t at = 0; at < outcome->out_length; lines++) {
        const unsigned char *line = outcome->out + at, *end = memchr(line, '\n', outcome->out_length - at);
        if (!end || (is_form && !is_form(line, (size_t)(end - line)))) return NEVER;
        at += (size_t)(end - line) + 1;
    }
    return lines;
}

/* By which number an image of a version has to be refused, or 0. */
static int image_refusal(const struct file *image, int version)
{
    for (size_t at = 1; at < image->length && at < IMAGE_BYTES; at += 2) {
        if (version == 1 ? image->bytes[at] & 1 : !__builtin_parity(image->bytes[at - 1] ^ image->bytes[at])) return 5;
    }
    return image->length < IMAGE_BYTES ? 3 : image->length > IMAGE_BYTES ? 4 : 0;
}

static unsigned word_at(const struct file *image, size_t place)
{
    return (image->bytes[2 * place] << 8 | image->bytes[2 * place + 1]) >> 1;
}

/* Whether NEW is the image of OLD's words in version 2. */
static int is_upgraded(const struct file *old, const struct outcome *outcome)
{
    struct file new = {NULL, outcome->made, outcome->made_length, 0};
    if (!outcome->is_made || image_refusal(&new, 2)) return 0;
    for (size_t place = 0; place < IMAGE_BYTES / 2; place++) {
        if (word_at(old, place) != word_at(&new, place)) return 0;
    }
    return 1;
}

static const char *judge_difference(const struct outcome *outcome)
{
    long differing = 0;
    char last[32];
    for (size_t place = 0; place < IMAGE_BYTES / 2; place++) differing += word_at(&call.files[0], place) != word_at(&call.files[1], place);
    int length = snprintf(last, sizeof last, "COUNT %ld\n", differing);
    if (outcome->status != (differing > 0) || lines_of(outcome, NULL) != differing + 1) return "another difference";
    return memcmp(outcome->out + outcome->out_length - length, last, (size_t)length) == 0 ? NULL : "another count";
}

/* Why the answer to an image that is taken is wrong, or NULL. */
static const char *judge_image(const struct outcome *outcome)
{
    if (strcmp(command, "compare") == 0) return judge_difference(outcome);
    if (outcome->status != STATUS_DONE) return "refused";
    if (strcmp(command, "upgrade") == 0) return is_upgraded(&call.files[0], outcome) && outcome->out_length == 0 ? NULL : "another upgrade";
    if (strcmp(command, "sums") == 0) return lines_of(outcome, NULL) == 36 ? NULL : "another count of sums";
    if (strcmp(command, "words") == 0) return lines_of(outcome, NULL) == (has_bank ? 1024 : IMAGE_BYTES / 2) ? NULL : "another count of words";
    return lines_of(outcome, strcmp(command, "run") == 0 ? is_channel_line : reply_form) == NEVER ? "another output" : NULL;
}

/* Why an answer of status 0 is wrong, or NULL. */
static const char *judge_done(const struct outcome *outcome)
{
    int is_run = strcmp(command, "run") == 0, is_debug = strcmp(command, "debug") == 0;
    if (is_run || is_debug) return lines_of(outcome, is_run ? is_channel_line : reply_form) == NEVER || outcome->is_made ? "another output" : NULL;
    return outcome->is_made && outcome->made_length == IMAGE_BYTES && lines_of(outcome, NULL) > 0 ? NULL : "no whole image, or no listing";
}

/* The number of a refusal that begins with the name of a file of the call, as `compare` tells it, else 0. */
static int refusal_of_file(const char *errors)
{
    const char *named = strstr(errors, ": error E"), *end = strchr(errors, '\n');
    int number, length = 0;
    if (!named || !end || end[1] || sscanf(named, ": error E%2d: %n", &number, &length) != 1 || length < 12 || named + length >= end) return 0;
    for (size_t at = 0; at < call.file_count; at++) {
        const char *path = call.files[at].path;
        if (strlen(path) == (size_t)(named - errors) && memcmp(errors, path, strlen(path)) == 0) return number;
    }
    return 0;
}

/* The number of a refusal that is told as it has to be, else 0. */
static int refusal_of(const struct outcome *outcome)
{
    int number, length = 0;
    unsigned long line;
    if (strcmp(command, "compare") == 0 && (number = refusal_of_file(outcome->errors)) > 0) return number;
    if (sscanf(outcome->errors, "agcws: E%2d%n", &number, &length) != 1 || length < 9) return 0;
    const char *rest = outcome->errors + length;
    if (strcmp(rest, "\n") == 0) return number;
    length = 0;
    if (sscanf(rest, " LINE %lu%n", &line, &length) != 1 || line == 0 || rest[6] == '0') return 0;
    return strcmp(rest + length, "\n") == 0 ? number : 0;
}

/* Whether what stands on standard error is the summary of a run. */
static int is_summary(const struct outcome *outcome)
{
    unsigned long steps, cycles, outputs;
    int z, length = 0;
    int found = sscanf(outcome->errors, "END STEPS %lu CYCLES %lu OUTPUTS %lu Z %4o%n", &steps, &cycles, &outputs, (unsigned *)&z, &length);
    return found == 4 && strcmp(outcome->errors + length, "\n") == 0 && (long)outputs == lines_of(outcome, NULL);
}

/* Why an answer is wrong, or NULL. */
static const char *judge(const struct outcome *outcome, int kind, size_t length)
{
    int wanted = kind == IMAGE ? image_refusal(&call.files[0], image_version) : 0;
    if (has_twin && !wanted) wanted = image_refusal(&call.files[1], image_version);
    if (outcome->memory > MOST_MEMORY + MEMORY_PER_BYTE * length) return "too much memory";
    if (has_end && outcome->status == STATUS_DONE && !is_summary(outcome)) return "another summary";
    if (outcome->error_length == 0 || (has_end && outcome->status == STATUS_DONE)) {
        if (wanted) return "not refused";
        if (kind == IMAGE) return judge_image(outcome);
        return outcome->status == STATUS_DONE ? judge_done(outcome) : "another status";
    }
    int number = refusal_of(outcome);
    if (outcome->status != STATUS_REFUSED || number == 0 || !(allowed >> number & 1)) return "no such refusal";
    if (kind == IMAGE && number != wanted) return "another refusal";
    return outcome->out_length > 0 || outcome->is_made ? "refused, with some output" : NULL;
}

static int is_beginning(const unsigned char *bytes, size_t length, const unsigned char *whole, size_t whole_length)
{
    return length <= whole_length && memcmp(bytes, whole, length) == 0;
}

/* Why the answer to a call with a failure is wrong, given what the call answers without it; or NULL. */
static const char *judge_failure(const struct outcome *failed, const struct outcome *plain, enum failure failure)
{
    int is_begun = is_beginning(failed->out, failed->out_length, plain->out, plain->out_length) && is_beginning(failed->made, failed->made_length, plain->made, plain->made_length);
    int is_told = strcmp(failed->errors, FAILURE_LINES[failure]) == 0 || (failure == NO_READ && refusal_of(failed) == 6);
    if (failed->status == STATUS_FAILED && is_told) return is_begun ? NULL : "failed, and what was written is no beginning";
    if (failure != NO_MEMORY || failed->status != plain->status || strcmp(failed->errors, plain->errors) != 0) return "another end of a call that failed";
    if (is_begun && failed->out_length == plain->out_length && failed->made_length == plain->made_length) return NULL;
    return strcmp(command, "debug") == 0 && memmem(failed->out, failed->out_length, "E2 MEMORY\n", 10) ? NULL : "another output of a call that failed";
}

/* Setting up, and the cases */

static const char *setting(const char *name)
{
    const char *text = getenv(name);
    if (text) return text;
    fprintf(stderr, "in_process: %s is not set\n", name);
    _exit(2);
}

static struct text read_file(const char *path)
{
    struct text text = {NULL, 0};
    FILE *file = fopen(path, "rb");
    if (!file) return text;
    unsigned char *bytes = __libc_malloc(MOST_BYTES);
    text.length = fread(bytes, 1, MOST_BYTES, file);
    text.bytes = bytes;
    fclose(file);
    return text;
}

static size_t read_sound(struct text *sound)
{
    size_t count = 0;
    char *paths = strdup(setting("HOSTILE_SOUND")), *rest = paths;
    for (char *path; (path = strsep(&rest, ":")) && count < MOST_SOUND;) {
        if (*path) sound[count++] = read_file(path);
    }
    free(paths);
    return count;
}

/* The files that the words of the call name; the case comes first. */
static void find_files(int count, char **words)
{
    command = words[1];
    image_version = strcmp(command, "upgrade") == 0 || has_option(count, words, "--rope=1") || has_option(count, words, "--old=1") ? 1 : 2;
    has_end = has_option(count, words, "--end");
    reply_form = has_option(count, words, "--extended") ? NULL : is_reply;
    has_twin = has_option(count, words, "twin");
    has_bank = strcmp(command, "words") == 0 && strcmp(words[count - 1], "case") != 0;
    has_case = has_option(count, words, "case");
    if (has_case) call.files[call.file_count++].path = "case";
    if (has_twin) call.files[call.file_count++].path = "twin";
    for (int at = 2; at < count && call.file_count < MOST_FILES; at++) {
        struct text text = read_file(words[at]);
        if (!text.bytes) continue;
        call.files[call.file_count++] = (struct file){words[at], text.bytes, text.length, 0};
    }
}

static void too_slow(int signal)
{
    static uint64_t last = UINT64_MAX;
    static int seconds;
    (void)signal;
    seconds = *progress == last ? seconds + 1 : 0;
    last = *progress;
    if (seconds >= MOST_SECONDS) _exit(99);
}

static void start_watching(void)
{
    struct itimerval each_second = {{1, 0}, {1, 0}};
    struct sigaction action = {.sa_handler = too_slow, .sa_flags = SA_RESTART};
    int file = open(setting("HOSTILE_PROGRESS"), O_RDWR | O_CREAT, 0600);
    if (file < 0 || ftruncate(file, sizeof *progress) != 0) _exit(2);
    progress = mmap(NULL, sizeof *progress, PROT_READ | PROT_WRITE, MAP_SHARED, file, 0);
    sigaction(SIGPROF, &action, NULL);
    setitimer(ITIMER_PROF, &each_second, NULL);
}

static uint32_t crc_of(const unsigned char *bytes, size_t length)
{
    uint32_t crc = UINT32_MAX;
    for (size_t at = 0; at < length; at++) {
        crc ^= bytes[at];
        for (int bit = 0; bit < 8; bit++) crc = crc >> 1 ^ (0xEDB88320u & -(crc & 1));
    }
    return ~crc;
}

static long microseconds(clockid_t clock)
{
    struct timespec now;
    clock_gettime(clock, &now);
    return now.tv_sec * 1000000 + now.tv_nsec / 1000;
}

/* The time since two clocks stood so: the processor's clock goes by leaps, the other also while others run. */
static long time_since(long processor, long wall)
{
    long by_processor = microseconds(CLOCK_PROCESS_CPUTIME_ID) - processor, by_wall = microseconds(CLOCK_MONOTONIC) - wall;
    return by_processor < by_wall ? by_processor : by_wall;
}

static struct {
    uint64_t answers[100], failures[FAILURES], cases, slowest_case, largest_case;
    long slowest;
    size_t largest;
    int wrong;
} told;

static void tell_wrong(uint64_t number, const char *why, const struct outcome *outcome)
{
    told.wrong++;
    printf("wrong %llu %s: status %d, %zu bytes, %s", (unsigned long long)number, why, outcome->status, outcome->out_length, outcome->error_length ? outcome->errors : "no error\n");
    fflush(stdout);
}

/* Another small number for each number. */
static size_t mixed(uint64_t number, size_t most)
{
    number = (number ^ number >> 31) * 0x7FB5D329728EA185u;
    number = (number ^ number >> 27) * 0x81DADEF4BC2DD44Du;
    return (size_t)((number >> 33) % most);
}

static void try_failure(int count, char **words, char **environment, uint64_t number, const struct outcome *plain, struct outcome *failed)
{
    enum failure failure = (enum failure)(1 + mixed(number + 1, FAILURES - 1));
    if (plain->asked[failure] == 0) failure = NO_MEMORY;
    size_t at = 1 + mixed(number + 2, plain->asked[failure]);
    make_call(count, words, environment, failed, failure, at);
    const char *why = judge_failure(failed, plain, failure);
    if (why) tell_wrong(number, why, failed);
    if (why) printf("wrong %llu it was %s %zu of %zu\n", (unsigned long long)number, FAILURE_NAMES[failure], at, plain->asked[failure]);
    told.failures[failure]++;
}

static void count_answer(uint64_t number, const struct outcome *outcome, long took)
{
    told.answers[refusal_of(outcome)]++;
    told.cases++;
    if (took > told.slowest) told.slowest = took, told.slowest_case = number;
    if (outcome->memory > told.largest) told.largest = outcome->memory, told.largest_case = number;
}

static void tell_answer(uint64_t number, const struct outcome *outcome)
{
    char *end = strchr(outcome->errors, '\n');
    printf("told %llu %d %.*s %zu %u %zd\n", (unsigned long long)number, outcome->status, end ? (int)(end - outcome->errors) : 1, end ? outcome->errors : "-",
           outcome->out_length, crc_of(outcome->out, outcome->out_length), outcome->is_made ? (ssize_t)outcome->made_length : -1);
}

static void tell_all(void)
{
    for (int number = 0; number < 100; number++) {
        if (told.answers[number]) printf("answers E%d %llu\n", number, (unsigned long long)told.answers[number]);
    }
    for (int failure = NO_MEMORY; failure < FAILURES; failure++) printf("failures %s %llu\n", FAILURE_NAMES[failure], (unsigned long long)told.failures[failure]);
    printf("cases %llu\nslowest %ld %llu\nlargest %zu %llu\n", (unsigned long long)told.cases, told.slowest, (unsigned long long)told.slowest_case, told.largest, (unsigned long long)told.largest_case);
    fflush(stdout);
}

static struct {
    const char *seed;
    int kind, has_failures, is_told;
    uint64_t first, last, step;
    struct text sound[MOST_SOUND];
    size_t sounds;
} given;

static uint64_t number_set(const char *name)
{
    return strtoull(setting(name), NULL, 10);
}

static void read_settings(void)
{
    given.seed = setting("HOSTILE_SEED");
    given.kind = (int)number_set("HOSTILE_KIND");
    given.first = number_set("HOSTILE_FIRST");
    given.step = number_set("HOSTILE_STEP");
    given.last = number_set("HOSTILE_LAST");
    given.has_failures = getenv("HOSTILE_FAILURES") != NULL;
    given.is_told = getenv("HOSTILE_TELL") != NULL;
    given.sounds = read_sound(given.sound);
    char *refusals = strdup(setting("HOSTILE_REFUSALS")), *rest = refusals;
    for (char *refusal; (refusal = strsep(&rest, ","));) allowed |= *refusal ? 1ull << atoi(refusal) : 0;
    free(refusals);
    struct text input = read_file(setting("HOSTILE_INPUT"));
    call.standard_input = (struct file){"", input.bytes, input.length, 0};
}

/* Sets up the files of a case, and by how many bytes they are read and written at a time; answers how many bytes the case has. */
static size_t set_case(uint64_t number)
{
    static unsigned char bytes[MOST_BYTES], twin[MOST_BYTES];
    struct file *file = has_case ? &call.files[0] : &call.standard_input;
    file->bytes = bytes;
    file->length = make_case(given.seed, given.kind, number, given.sound, given.sounds, bytes);
    if (has_twin) {
        memcpy(twin, bytes, file->length);
        call.files[1].bytes = twin;
        call.files[1].length = make_twin(given.seed, given.kind, number, twin, file->length);
    }
    call.most_read = mixed(number + 3, 4) ? SIZE_MAX : 1 + mixed(number + 4, given.kind == IMAGE ? 4096 : 16);
    call.most_written = mixed(number + 5, 8) ? SIZE_MAX : 1 + mixed(number + 6, 4096);
    return file->length;
}

static void try_case(int count, char **words, char **environment, uint64_t number)
{
    static unsigned char room[4][MOST_OUT];
    static struct outcome plain = {.out = room[0], .made = room[1]}, failed = {.out = room[2], .made = room[3]};
    size_t length = set_case(number);
    long processor = microseconds(CLOCK_PROCESS_CPUTIME_ID), wall = microseconds(CLOCK_MONOTONIC);
    make_call(count, words, environment, &plain, NONE, 0);
    count_answer(number, &plain, time_since(processor, wall));
    const char *why = judge(&plain, given.kind, length);
    if (why) tell_wrong(number, why, &plain);
    if (given.is_told) tell_answer(number, &plain);
    if (given.has_failures) try_failure(count, words, environment, number, &plain, &failed);
}

static int try_all(int count, char **words, char **environment)
{
    read_settings();
    find_files(count, words);
    start_watching();
    arena.start = arena.high = mmap(NULL, ARENA_BYTES, PROT_READ | PROT_WRITE, MAP_PRIVATE | MAP_ANONYMOUS | MAP_NORESERVE, -1, 0);
    dl_iterate_phdr(find_variables, NULL);
    for (uint64_t number = given.first; number < given.last && told.wrong < MOST_WRONG; number += given.step) {
        *progress = number;
        try_case(count, words, environment, number);
    }
    tell_all();
    return told.wrong > 0;
}

int __libc_start_main(program_main *main, int count, char **words, void (*begin)(void), void (*finish)(void), void (*loader)(void), void *stack)
{
    int (*start)(program_main *, int, char **, void (*)(void), void (*)(void), void (*)(void), void *) = dlsym(RTLD_NEXT, "__libc_start_main");
    program = main;
    return start(try_all, count, words, begin, finish, loader, stack);
}
