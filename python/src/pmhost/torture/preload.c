/* Puts the bus of `pmhost torture` below a program that is there already, by LD_PRELOAD: what it opens as /dev/i2c-N is a
 * connection to the bench, which the variable PMHOST_TORTURE names. Its I2C_RDWR, I2C_SMBUS (with I2C_PEC) and plain reads and writes
 * go there, as they go to the kernel's i2c-dev, and the bench may refuse a bus and an address. Locks are the kernel's own, of a file
 * beside the bench. All else goes to the C library. */
#define _GNU_SOURCE
#include <dlfcn.h>
#include <errno.h>
#include <fcntl.h>
#include <linux/i2c-dev.h>
#include <linux/i2c.h>
#include <stdarg.h>
#include <stdint.h>
#include <stdio.h>
#include <stdlib.h>
#include <string.h>
#include <sys/socket.h>
#include <sys/un.h>
#include <unistd.h>

#define FILES 1024
/* In the place of a number of messages: a call of SMBus, another call of a file, and that a bus is opened. */
#define SMBUS 0xFF
#define ASKED 0xFE
#define OPENED 0
/* The C library's own function of a name. */
#define NEXT(name, ...) ((int (*)(__VA_ARGS__))dlsym(RTLD_NEXT, name))

/* What is known of a file of a bus. */
static struct { uint8_t is_bus, has_pec; uint16_t address; int locks; } files[FILES];

static int is_bus(int file) { return file >= 0 && file < FILES && files[file].is_bus; }

/* ---- Messages to the bench ---- */

static int is_moved(int file, void *bytes, size_t count, int is_read) {
    uint8_t *at = bytes;
    while (count > 0) {
        ssize_t went = is_read ? recv(file, at, count, MSG_WAITALL) : send(file, at, count, MSG_NOSIGNAL);
        if (went < 0 && errno == EINTR)
            continue;
        if (went <= 0)
            return 0;
        at += went;
        count -= (size_t)went;
    }
    return 1;
}

/* What the bench answers to a call of a file: a number, or minus the error. */
static int asked(int file, uint32_t request, uint32_t argument) {
    struct { uint8_t head, spare[3]; uint32_t request, argument; } call = {ASKED, {0}, request, argument};
    int32_t result;
    return is_moved(file, &call, sizeof call, 0) && is_moved(file, &result, sizeof result, 1) ? result : -EIO;
}

/* Carries messages out: how many went, or minus the error. A read message's length becomes the number of bytes that came. */
static int transfer(int file, struct i2c_msg *messages, unsigned count) {
    uint8_t head = (uint8_t)count;
    int32_t result;
    int is_whole = is_moved(file, &head, 1, 0);
    for (unsigned i = 0; i < count && is_whole; i++) {
        uint16_t facts[3] = {messages[i].addr, messages[i].flags, messages[i].len};
        is_whole = is_moved(file, facts, sizeof facts, 0) &&
                   (messages[i].flags & I2C_M_RD || is_moved(file, messages[i].buf, messages[i].len, 0));
    }
    is_whole = is_whole && is_moved(file, &result, sizeof result, 1);
    for (unsigned i = 0; i < count && is_whole && result >= 0; i++)
        if (messages[i].flags & I2C_M_RD) {
            uint16_t came;
            is_whole = is_moved(file, &came, sizeof came, 1) && is_moved(file, messages[i].buf, came, 1);
            messages[i].len = came;
        }
    return is_whole ? result : -EIO;
}

/* ---- SMBus, whose messages the bench makes ---- */

static int smbus(int file, const struct i2c_smbus_ioctl_data *asked) {
    int is_read = asked->read_write == I2C_SMBUS_READ, has_data = asked->data != NULL;
    struct { uint8_t head, is_read, code, has_pec; uint16_t address; uint32_t size; uint8_t data[I2C_SMBUS_BLOCK_MAX + 2]; } call = {
        SMBUS, (uint8_t)is_read, asked->command, files[file].has_pec, files[file].address, asked->size, {0}};
    struct { int32_t result; uint8_t data[I2C_SMBUS_BLOCK_MAX + 2]; } answer;
    /* The caller's union may be shorter than the longest block: what goes is what this kind has, as in the kernel. */
    size_t most = asked->size == I2C_SMBUS_QUICK || (asked->size == I2C_SMBUS_BYTE && !is_read) ? 0
        : asked->size == I2C_SMBUS_BYTE || asked->size == I2C_SMBUS_BYTE_DATA ? 1
        : asked->size == I2C_SMBUS_WORD_DATA || asked->size == I2C_SMBUS_PROC_CALL ? 2
        : sizeof call.data;
    if (most > 0 && !has_data)
        return -EINVAL;
    if (most > 0)
        memcpy(call.data, asked->data, most);
    if (!is_moved(file, &call, sizeof call, 0) || !is_moved(file, &answer, sizeof answer, 1))
        return -EIO;
    if (answer.result >= 0 && most > 0 && (is_read || asked->size == I2C_SMBUS_PROC_CALL || asked->size == I2C_SMBUS_BLOCK_PROC_CALL))
        memcpy(asked->data, answer.data, most);
    return answer.result;
}

/* A call of I2C_RDWR: a read whose first byte is its count has in its buffer how many bytes come beside the block. */
static int messages(int file, const struct i2c_rdwr_ioctl_data *asked) {
    struct i2c_msg copies[I2C_RDWR_IOCTL_MAX_MSGS];
    if (asked->nmsgs > I2C_RDWR_IOCTL_MAX_MSGS)
        return -EINVAL;
    memcpy(copies, asked->msgs, asked->nmsgs * sizeof *copies);
    for (unsigned i = 0; i < asked->nmsgs; i++)
        if (copies[i].flags & I2C_M_RECV_LEN) {
            if (!(copies[i].flags & I2C_M_RD) || copies[i].len < 1 || copies[i].buf[0] < 1 || copies[i].len < copies[i].buf[0] + I2C_SMBUS_BLOCK_MAX)
                return -EINVAL;
            copies[i].len = copies[i].buf[0];
        }
    return transfer(file, copies, asked->nmsgs);
}

static int answered(int result) {
    if (result >= 0)
        return result;
    errno = -result;
    return -1;
}

/* ---- The calls of a program ---- */

static int closed(int file) { return NEXT("close", int)(file); }

/* The number of a bus is what its path ends in; its locks are in a file of this number. */
static int connected(const char *path, int flags) {
    struct sockaddr_un place = {.sun_family = AF_UNIX};
    const char *bench = getenv("PMHOST_TORTURE"), *number = path + strlen("/dev/i2c-");
    char locks[sizeof place.sun_path + 16];
    int file = bench == NULL || strlen(bench) >= sizeof place.sun_path ? -1 : socket(AF_UNIX, SOCK_STREAM, 0);
    if (file < 0 || file >= FILES)
        return answered(-ENOENT);
    strcpy(place.sun_path, bench);
    int result = connect(file, (struct sockaddr *)&place, sizeof place) < 0 ? -ENOENT : asked(file, OPENED, (uint32_t)strtoul(number, NULL, 10));
    if (result < 0) {
        closed(file);
        return answered(result);
    }
    snprintf(locks, sizeof locks, "%s.%.15s", bench, number);
    memset(&files[file], 0, sizeof files[file]);
    files[file].locks = NEXT("open", const char *, int, ...)(locks, (flags & O_ACCMODE) | O_CREAT | O_CLOEXEC, 0600);
    files[file].is_bus = 1;
    return file;
}

static int is_path(const char *path) { return strncmp(path, "/dev/i2c-", 9) == 0 || strncmp(path, "/dev/i2c/", 9) == 0; }

#define OPENS(name)                                                                                                            \
    int name(const char *path, int flags, ...) {                                                                              \
        va_list rest;                                                                                                          \
        va_start(rest, flags);                                                                                                 \
        mode_t mode = flags & (O_CREAT | O_TMPFILE) ? va_arg(rest, mode_t) : 0;                                                \
        va_end(rest);                                                                                                          \
        return is_path(path) ? connected(path, flags) : NEXT(#name, const char *, int, ...)(path, flags, mode);                          \
    }
OPENS(open)
OPENS(open64)

#define OPENS_AT(name)                                                                                                         \
    int name(int folder, const char *path, int flags, ...) {                                                                  \
        va_list rest;                                                                                                          \
        va_start(rest, flags);                                                                                                 \
        mode_t mode = flags & (O_CREAT | O_TMPFILE) ? va_arg(rest, mode_t) : 0;                                                \
        va_end(rest);                                                                                                          \
        return is_path(path) ? connected(path, flags) : NEXT(#name, int, const char *, int, ...)(folder, path, flags, mode);             \
    }
OPENS_AT(openat)
OPENS_AT(openat64)

int close(int file) {
    if (is_bus(file)) {
        files[file].is_bus = 0;
        closed(files[file].locks);
    }
    return closed(file);
}

#define LOCKS(name)                                                                                                            \
    int name(int file, int request, ...) {                                                                                    \
        va_list rest;                                                                                                          \
        va_start(rest, request);                                                                                               \
        void *argument = va_arg(rest, void *);                                                                                 \
        va_end(rest);                                                                                                          \
        int is_lock = request == F_SETLK || request == F_SETLKW || request == F_OFD_SETLK || request == F_OFD_SETLKW;           \
        return NEXT(#name, int, int, ...)(is_lock && is_bus(file) ? files[file].locks : file, request, argument);              \
    }
LOCKS(fcntl)
LOCKS(fcntl64)

int ioctl(int file, unsigned long request, ...) {
    va_list rest;
    va_start(rest, request);
    void *argument = va_arg(rest, void *);
    va_end(rest);
    if (!is_bus(file))
        return NEXT("ioctl", int, unsigned long, ...)(file, request, argument);
    int result;
    switch (request) {
    case I2C_SLAVE:
    case I2C_SLAVE_FORCE:
        if ((result = (uintptr_t)argument > 0x7F ? -EINVAL : asked(file, request, (uint32_t)(uintptr_t)argument)) >= 0)
            files[file].address = (uint16_t)(uintptr_t)argument;
        return answered(result);
    case I2C_FUNCS:
        if ((result = asked(file, request, 0)) >= 0)
            *(unsigned long *)argument = (unsigned long)result;
        return answered(result < 0 ? result : 0);
    case I2C_PEC:
        files[file].has_pec = argument != NULL;
        return 0;
    case I2C_TENBIT:
        return argument == NULL ? 0 : answered(-EINVAL);
    case I2C_RETRIES:
    case I2C_TIMEOUT:
        return 0;
    case I2C_SMBUS:
        return answered(smbus(file, argument));
    case I2C_RDWR:
        return answered(messages(file, argument));
    default:
        return answered(-ENOTTY);
    }
}

ssize_t write(int file, const void *bytes, size_t count) {
    if (!is_bus(file))
        return ((ssize_t (*)(int, const void *, size_t))dlsym(RTLD_NEXT, "write"))(file, bytes, count);
    struct i2c_msg only = {files[file].address, 0, (uint16_t)count, (uint8_t *)bytes};
    int went = answered(transfer(file, &only, 1));
    return went < 0 ? went : (ssize_t)count;
}

ssize_t read(int file, void *bytes, size_t count) {
    if (!is_bus(file))
        return ((ssize_t (*)(int, void *, size_t))dlsym(RTLD_NEXT, "read"))(file, bytes, count);
    struct i2c_msg only = {files[file].address, I2C_M_RD, (uint16_t)count, bytes};
    int went = answered(transfer(file, &only, 1));
    return went < 0 ? went : (ssize_t)count;
}
