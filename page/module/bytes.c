// The functions on bytes that a compiler may call of itself. Nothing proves them.

typedef unsigned char byte;
typedef unsigned long size;

void *memcpy(void *restrict to, const void *restrict from, size count) {
    byte *out = to;
    const byte *in = from;
    for (size k = 0; k < count; k++)
        out[k] = in[k];
    return to;
}

void *memmove(void *to, const void *from, size count) {
    byte *out = to;
    const byte *in = from;
    if ((size)out <= (size)in) {
        for (size k = 0; k < count; k++)
            out[k] = in[k];
    } else {
        for (size k = count; k > 0; k--)
            out[k - 1] = in[k - 1];
    }
    return to;
}

void *memset(void *to, int value, size count) {
    byte *out = to;
    for (size k = 0; k < count; k++)
        out[k] = (byte)value;
    return to;
}

int memcmp(const void *left, const void *right, size count) {
    const byte *a = left, *b = right;
    for (size k = 0; k < count; k++)
        if (a[k] != b[k])
            return a[k] < b[k] ? -1 : 1;
    return 0;
}

int bcmp(const void *left, const void *right, size count) {
    return memcmp(left, right, count);
}
