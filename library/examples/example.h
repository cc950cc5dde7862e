/* What the examples have in common: the bytes of a file, and messages. */
#include <capkit.h>
#include <errno.h>
#include <fcntl.h>
#include <stdio.h>
#include <stdlib.h>
#include <string.h>
#include <sys/mman.h>
#include <sys/stat.h>
#include <unistd.h>

/* Says why an expression isn't compiled: PROGRAM: TEXT, and where in the expression that is. */
static inline void report_status(const char *program, uint32_t status, size_t place)
{
    char text[64];
    capkit_text(status, text, sizeof text);
    fprintf(stderr, "%s: %s", program, text);
    if ((status >= CAPKIT_UNKNOWN_CHARACTER && status <= CAPKIT_NUMBER_TOO_LARGE) ||
        status == CAPKIT_NOT_UTF8)
        fprintf(stderr, " (at byte %zu)", place);
    fputc('\n', stderr);
}

/* Says why a capture can't be read on, or a packet not written: PROGRAM: NAME: offset N: TEXT. */
static inline void report_found(const char *program, const char *name, uint32_t found,
                                size_t offset)
{
    char text[64];
    capkit_text(found, text, sizeof text);
    fprintf(stderr, "%s: %s: offset %zu: %s\n", program, name, offset, text);
}

/* Memory for the program of an expression, which is checked before anything else is done; null, and
 * a message, if it is refused. */
static inline struct capkit_insn *room_of(const char *program, const char *expression, size_t *room)
{
    uint32_t status = capkit_bound(expression, strlen(expression), room);
    struct capkit_insn *insns = NULL;
    if (status)
        report_status(program, status, *room);
    else if ((insns = calloc(*room, sizeof *insns)) == NULL)
        perror(program);
    return insns;
}

/* Reads bytes as they come, though a signal interrupts it: as read(2), but never fails by EINTR. */
static inline ssize_t read_some(int file, uint8_t *bytes, size_t room)
{
    ssize_t got;
    do
        got = read(file, bytes, room);
    while (got < 0 && errno == EINTR);
    return got;
}

/* Reads on: moves the bytes that the reader hasn't passed to the start of a buffer, and reads more
 * after them. *size bytes of the buffer are used. Returns what read(2) returned: 0 at the end, -1
 * after a failure. */
static inline ssize_t read_on(int file, struct capkit_reader *reader, uint8_t *buffer, size_t room,
                              size_t *size)
{
    ssize_t got;
    *size -= reader->offset;
    memmove(buffer, buffer + reader->offset, *size);
    reader->offset = 0;
    got = read_some(file, buffer + *size, room - *size);
    *size += got > 0 ? (size_t)got : 0;
    return got;
}

/* The remaining bytes of a file that can't be mapped, such as a pipe; null if it can't be read. */
static inline uint8_t *read_whole(int file, size_t *size)
{
    uint8_t *bytes = NULL, *grown;
    ssize_t got = 1;
    for (*size = 0; got > 0; *size += got) {
        if ((grown = realloc(bytes, *size + 65536)) == NULL)
            break;
        bytes = grown;
        if ((got = read_some(file, bytes + *size, 65536)) < 0)
            break;
    }
    if (got == 0)
        return bytes;
    free(bytes);
    return NULL;
}

/* The bytes of a capture, until the program ends; null, and a message, if it can't be read. It
 * is mapped, so it may be larger than memory, and must not be changed meanwhile. */
static inline const uint8_t *capture_of(const char *program, const char *name, size_t *size)
{
    void *bytes = NULL;
    struct stat status;
    int file = open(name, O_RDONLY);
    if (file >= 0 && fstat(file, &status) == 0) {
        bytes = mmap(NULL, *size = status.st_size, PROT_READ, MAP_PRIVATE, file, 0);
        if (bytes == MAP_FAILED)
            bytes = read_whole(file, size);
    }
    if (!bytes)
        fprintf(stderr, "%s: %s: %s\n", program, name, strerror(errno));
    if (file >= 0)
        close(file);
    return bytes;
}
