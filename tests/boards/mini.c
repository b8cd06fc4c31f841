/* The little of C's library that the test programs use, for targets whose packages have none: RISC-V 32 under qemu-riscv32, by
 * the calls of Linux, and WebAssembly, by two functions that its host gives. */
#include <stddef.h>

int main(void);

/* ---- a byte out, a byte in (-1 where none is left), and the start */

#if defined __riscv
static long system_call(long number, long a, long b, long c)
{
    register long a7 __asm__("a7") = number, a0 __asm__("a0") = a, a1 __asm__("a1") = b, a2 __asm__("a2") = c;
    __asm__ volatile("ecall" : "+r"(a0) : "r"(a7), "r"(a1), "r"(a2) : "memory");
    return a0;
}

static unsigned char waiting[4096];
static size_t held, given, queued;
static unsigned char queue[4096];

static void flush(void)
{
    for (size_t at = 0; at < queued;)
        at += (size_t)system_call(64, 1, (long)(queue + at), (long)(queued - at));
    queued = 0;
}

static void put(int c)
{
    queue[queued++] = (unsigned char)c;
    if (queued == sizeof queue)
        flush();
}

static int get(void)
{
    if (given == held) {
        long n = system_call(63, 0, (long)waiting, sizeof waiting);
        given = 0;
        held = n > 0 ? (size_t)n : 0;
    }
    return given < held ? waiting[given++] : -1;
}

__attribute__((used)) static void begin(void)
{
    int status = main();
    flush();
    system_call(93, status, 0, 0);
}

__asm__(".global _start\n_start:\n.option push\n.option norelax\nla gp, __global_pointer$\n.option pop\nandi sp, sp, -16\ntail begin\n");
#else
__attribute__((import_module("host"), import_name("put"))) void put(int c);
__attribute__((import_module("host"), import_name("get"))) int get(void);
#endif

int getchar(void) { return get(); }

/* ---- bytes */

void *memcpy(void *to, const void *from, size_t n)
{
    for (size_t i = 0; i < n; i++)
        ((unsigned char *)to)[i] = ((const unsigned char *)from)[i];
    return to;
}

void *memmove(void *to, const void *from, size_t n)
{
    if ((const unsigned char *)to < (const unsigned char *)from)
        return memcpy(to, from, n);
    while (n-- > 0)
        ((unsigned char *)to)[n] = ((const unsigned char *)from)[n];
    return to;
}

void *memset(void *to, int byte, size_t n)
{
    for (size_t i = 0; i < n; i++)
        ((unsigned char *)to)[i] = (unsigned char)byte;
    return to;
}

int memcmp(const void *a, const void *b, size_t n)
{
    const unsigned char *p = a, *q = b;
    for (; n > 0; n--, p++, q++)
        if (*p != *q)
            return *p < *q ? -1 : 1;
    return 0;
}

size_t strlen(const char *text)
{
    size_t n = 0;
    while (text[n])
        n++;
    return n;
}

int strcmp(const char *a, const char *b)
{
    for (; *a && *a == *b; a++, b++) {
    }
    return (unsigned char)*a - (unsigned char)*b;
}

/* ---- text: %s %c %u %d %x %X, with a width and a fill of zeros */

static char *into; /* where the text goes; to standard output where it is null */
static int many;

static void emit(int c)
{
    many++;
    if (into)
        *into++ = (char)c;
    else
        put(c);
}

static void number(unsigned n, unsigned base, const char *digits, unsigned wide, char fill)
{
    char text[12];
    unsigned k = 0;
    do
        text[k++] = digits[n % base];
    while ((n /= base) != 0);
    for (; wide > k; wide--)
        emit(fill);
    while (k > 0)
        emit(text[--k]);
}

static void format(const char *f, __builtin_va_list a)
{
    for (many = 0; *f; f++) {
        unsigned wide = 0;
        char fill = ' ';
        if (*f != '%') {
            emit(*f);
            continue;
        }
        if (*++f == '0')
            fill = *f++;
        for (; *f >= '0' && *f <= '9'; f++)
            wide = wide * 10 + (unsigned)(*f - '0');
        if (*f == 's')
            for (const char *s = __builtin_va_arg(a, const char *); *s; s++)
                emit(*s);
        else if (*f == 'c')
            emit(__builtin_va_arg(a, int));
        else
            number(__builtin_va_arg(a, unsigned), *f == 'x' || *f == 'X' ? 16 : 10, *f == 'x' ? "0123456789abcdef" : "0123456789ABCDEF", wide, fill);
    }
}

int printf(const char *f, ...)
{
    __builtin_va_list a;
    __builtin_va_start(a, f);
    into = 0;
    format(f, a);
    __builtin_va_end(a);
    return many;
}

int sprintf(char *to, const char *f, ...)
{
    __builtin_va_list a;
    __builtin_va_start(a, f);
    into = to;
    format(f, a);
    *into = 0;
    __builtin_va_end(a);
    return many;
}

int puts(const char *text) { return printf("%s\n", text); }

int putchar(int c)
{
    put(c);
    return c;
}
