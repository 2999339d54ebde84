/* What compiled code may call of a C library, which the bridge is built without. */

typedef unsigned long size;

void *memcpy(void *to, const void *from, size count)
{
    for (size i = 0; i < count; i++)
        ((volatile char *)to)[i] = ((const char *)from)[i];
    return to;
}

void *memmove(void *to, const void *from, size count)
{
    if (to <= from)
        return memcpy(to, from, count);
    for (size i = count; i > 0; i--)
        ((volatile char *)to)[i - 1] = ((const char *)from)[i - 1];
    return to;
}

void *memset(void *to, int byte, size count)
{
    for (size i = 0; i < count; i++)
        ((volatile char *)to)[i] = byte;
    return to;
}

int memcmp(const void *left, const void *right, size count)
{
    for (size i = 0; i < count; i++) {
        int l = ((const unsigned char *)left)[i];
        int r = ((const unsigned char *)right)[i];
        if (l != r)
            return l - r;
    }
    return 0;
}
