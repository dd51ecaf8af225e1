/* Next-write in plain C, as one would write it: document 01, "Calls". */
#include <stddef.h>
#include <stdint.h>
#include <string.h>

static size_t next_row(uint8_t *cells, size_t cursor) {
    size_t row = cursor / 80;
    if (row < 24)
        return (row + 1) * 80;
    memmove(cells, cells + 80, 1920);
    memset(cells + 1920, ' ', 80);
    return 1920;
}

size_t plain_put_all(uint8_t *cells, size_t length, size_t cursor, const uint8_t *bytes, size_t count) {
    if (length != 2000 || cursor >= 2000)
        return cursor;
    for (size_t i = 0; i < count; i++) {
        switch (bytes[i]) {
        case '\n':
            cursor = next_row(cells, cursor);
            break;
        case '\r':
            cursor -= cursor % 80;
            break;
        case '\b':
            if (cursor % 80 > 0)
                cursor--;
            break;
        default:
            cells[cursor] = bytes[i];
            cursor = cursor % 80 < 79 ? cursor + 1 : next_row(cells, cursor);
        }
    }
    return cursor;
}
