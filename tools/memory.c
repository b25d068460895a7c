/* What a compiler calls to copy, clear or fill memory, for the slave alone: tools/controller compiles this beside the slave's
 * code and binds that code's calls to it. So the archive needs nothing of a C library, and gives the rest of a firmware
 * nothing under a C library's names either. NEEDED has a line for each function called, as COPY(__wrap_memcpy).
 * Compiled as freestanding C: else a compiler makes calls to memcpy of these very loops. No access is unaligned. */
typedef __SIZE_TYPE__ size;
typedef __UINTPTR_TYPE__ place;
typedef unsigned char byte;
typedef unsigned int __attribute__((may_alias)) word;

#define HERE static __attribute__((unused))
#define PRIVATE __attribute__((weak, visibility("hidden")))

HERE void *copy(void *to, const void *from, size count)
{
    byte *t = to;
    const byte *f = from;
    if (((place)t | (place)f) % sizeof(word) == 0)
        for (; count >= sizeof(word); count -= sizeof(word), t += sizeof(word), f += sizeof(word))
            *(word *)(void *)t = *(const word *)(const void *)f;
    while (count-- > 0)
        *t++ = *f++;
    return to;
}

HERE void *move(void *to, const void *from, size count)
{
    byte *t = to;
    const byte *f = from;
    if ((place)t - (place)f >= count) /* forwards, no byte is written before it is read */
        return copy(to, from, count);
    while (count-- > 0)
        t[count] = f[count];
    return to;
}

HERE void *fill(void *to, byte value, size count)
{
    byte *t = to;
    for (; count > 0 && (place)t % sizeof(word) != 0; count--)
        *t++ = value;
    for (; count >= sizeof(word); count -= sizeof(word), t += sizeof(word))
        *(word *)(void *)t = value * 0x01010101u;
    while (count-- > 0)
        *t++ = value;
    return to;
}

/* As C has them, and as Arm's __aeabi_memset and __aeabi_memclr have their arguments. */
#define COPY(NAME) PRIVATE void *NAME(void *to, const void *from, size count) { return copy(to, from, count); }
#define MOVE(NAME) PRIVATE void *NAME(void *to, const void *from, size count) { return move(to, from, count); }
#define FILL(NAME) PRIVATE void *NAME(void *to, int value, size count) { return fill(to, (byte)value, count); }
#define FILL_WITH(NAME) PRIVATE void NAME(void *to, size count, int value) { fill(to, (byte)value, count); }
#define CLEAR(NAME) PRIVATE void NAME(void *to, size count) { fill(to, 0, count); }

NEEDED
