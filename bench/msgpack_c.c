// Decodes and encodes the MessagePack values on standard input with msgpack-c, a number of times,
// as `bench codec` does: msgpack_c decode|encode TIMES. It prints how many values there were,
// and how many bytes they are encoded to.
#include <msgpack.h>
#include <stdio.h>
#include <stdlib.h>
#include <string.h>

static char *read_all(size_t *length) {
    size_t room = 1 << 20, used = 0;
    char *bytes = malloc(room);
    for (;;) {
        size_t got = fread(bytes + used, 1, room - used, stdin);
        if (got == 0) break;
        used += got;
        if (used == room) bytes = realloc(bytes, room *= 2);
    }
    *length = used;
    return bytes;
}

// The values, kept to be encoded.
static size_t decode_all(const char *bytes, size_t length, msgpack_unpacked **values) {
    size_t count = 0, room = 1024, at = 0;
    msgpack_unpacked *all = malloc(room * sizeof *all);
    for (;;) {
        if (count == room) all = realloc(all, (room *= 2) * sizeof *all);
        msgpack_unpacked_init(&all[count]);
        if (msgpack_unpack_next(&all[count], bytes, length, &at) != MSGPACK_UNPACK_SUCCESS) break;
        count++;
    }
    *values = all;
    return count;
}

// Each value is let go before the next.
static size_t count_all(const char *bytes, size_t length) {
    size_t count = 0, at = 0;
    msgpack_unpacked value;
    msgpack_unpacked_init(&value);
    while (msgpack_unpack_next(&value, bytes, length, &at) == MSGPACK_UNPACK_SUCCESS) count++;
    msgpack_unpacked_destroy(&value);
    return count;
}

int main(int argc, char **argv) {
    int decodes = argc > 1 && strcmp(argv[1], "decode") == 0;
    long times = argc > 2 ? atol(argv[2]) : 1;
    size_t length;
    char *bytes = read_all(&length);
    msgpack_unpacked *values;
    size_t count = decode_all(bytes, length, &values);
    msgpack_sbuffer into;
    msgpack_sbuffer_init(&into);
    msgpack_packer packer;
    msgpack_packer_init(&packer, &into, msgpack_sbuffer_write);
    if (decodes) {
        for (long i = 1; i < times; i++) count_all(bytes, length);
        times = 1;
    }
    for (long i = 0; i < times; i++) {
        msgpack_sbuffer_clear(&into);
        for (size_t k = 0; k < count; k++) msgpack_pack_object(&packer, values[k].data);
    }
    printf("%zu values, %zu bytes\n", count, into.size);
    return 0;
}
