/* Preloaded to `report` or `steps`, whose main holds the log's room, the chunk by which the library reads, the work and the printing in
 * one frame: says the bytes of the room, of the chunk, and how many of the chunk's the work uses again. The compiler lets the work have
 * the chunk's place once all is read. So the chunk is painted when the log has ended, and looked at when the first word is printed. */
#define _GNU_SOURCE
#include <stdint.h>
#include <stdio.h>
#include <sys/syscall.h>
#include <unistd.h>

static unsigned char *room;
static volatile unsigned char *chunk;
static size_t room_size, chunk_size;
static enum { READING, ENDED, SAID } stage;

static unsigned char paint(size_t i) { return (unsigned char)(0xA5 + 37 * i); }

/* The room is what the first call offers; the chunk, what the call offers that finds the end, unless that is the room's rest. */
ssize_t read(int file, void *buffer, size_t size)
{
    const ssize_t got = syscall(SYS_read, file, buffer, size);
    if (room == NULL) {
        room = buffer;
        room_size = size;
    } else if (got == 0 && stage == READING) {
        stage = ENDED;
        chunk = buffer;
        if ((uintptr_t)buffer - (uintptr_t)room > room_size)
            chunk_size = size;
        for (size_t i = 0; i < chunk_size; i++)
            chunk[i] = paint(i);
    }
    return got;
}

ssize_t write(int file, const void *buffer, size_t size)
{
    if (stage == ENDED) {
        size_t used = chunk_size;
        while (used > 0 && chunk[used - 1] == paint(used - 1))
            used--;
        used = (used + 7) / 8 * 8;      /* the last byte written may be as it was painted */
        dprintf(2, "%zu %zu %zu\n", room_size, chunk_size, used);
        stage = SAID;
    }
    return syscall(SYS_write, file, buffer, size);
}
