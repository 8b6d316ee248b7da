/* Makes the writes and syncs by which a log adds payloads to a new file, and does nothing else: the yardstick of bench.py.

   FILE LENGTH COUNT GROUP: so many groups of so many payloads of so many bytes. For each group, its frames and a closed gate
   are written behind the end with the first gate left closed, and synced; then that gate is opened, and synced. */
#include <fcntl.h>
#include <stdint.h>
#include <stdlib.h>
#include <string.h>
#include <unistd.h>

static void put(int file, const unsigned char *bytes, size_t count, off_t at) {
    while (count > 0) {
        ssize_t done = pwrite(file, bytes, count, at);
        if (done <= 0) exit(1);
        bytes += done;
        count -= (size_t)done;
        at += done;
    }
    if (fdatasync(file) != 0) exit(1);
}

/* The frames without the first gate, and a closed gate; their length. */
static size_t fill(unsigned char *tail, const unsigned char *payload, size_t length, size_t group) {
    unsigned char *next = tail;
    for (size_t each = 0; each < group; each++) {
        uint32_t size = (uint32_t)length;
        if (each > 0) *next++ = 1;
        for (int byte = 0; byte < 4; byte++) *next++ = (unsigned char)(size >> (8 * byte));
        memcpy(next, payload, length);
        next += length;
    }
    *next++ = 0;
    return (size_t)(next - tail);
}

int main(int argc, char **argv) {
    if (argc != 5) return 2;
    size_t length = strtoul(argv[2], NULL, 10), count = strtoul(argv[3], NULL, 10), group = strtoul(argv[4], NULL, 10);
    int file = open(argv[1], O_RDWR | O_CREAT | O_TRUNC, 0666);
    unsigned char *payload = malloc(length + 1), *tail = malloc(group * (length + 5));
    if (file < 0 || !payload || !tail || group == 0) return 1;
    memset(payload, 'x', length);
    put(file, (const unsigned char *)"MJSPOOL1", 9, 0);
    off_t end = 8;
    for (size_t each = 0; each < count; each++) {
        size_t size = fill(tail, payload, length, group);
        put(file, tail, size, end + 1);
        put(file, (const unsigned char *)"\1", 1, end);
        end += (off_t)size;
    }
    return 0;
}
