/* A plain scanner of page files, to measure the proved one against: every call passes the file from its start, as a Web that copies nothing must.
   It is written for speed and the same answers on files without fault and without # in the names of pages, and checks every line of the page that it reads. */
#include <stdint.h>
#include <stdio.h>
#include <string.h>

static unsigned char file[65537];
static size_t size;
static unsigned char iri_byte[256], literal_byte[256];

typedef struct { const unsigned char *at; size_t length; int kind; } Term;

static const unsigned char *run(const unsigned char *p, const unsigned char *end, const unsigned char *table)
{
    while (p < end && table[*p])
        p++;
    return p;
}

/* where a line ends: byte by byte, or by the C library */
static const unsigned char *line_end(const unsigned char *p, const unsigned char *end)
{
#ifdef MEMCHR
    const unsigned char *stop = memchr(p, '\n', (size_t)(end - p));
    return stop ? stop : end;
#else
    while (p < end && *p != '\n')
        p++;
    return p;
#endif
}

/* a term in its marks; returns what stands behind it, or NULL */
static const unsigned char *term(const unsigned char *p, const unsigned char *end, int kind, Term *out)
{
    if (p == end || *p != (kind == 1 ? '<' : '"'))
        return NULL;
    const unsigned char *last = run(p + 1, end, kind == 1 ? iri_byte : literal_byte);
    size_t length = (size_t)(last - p - 1);
    if (length > 128 || (kind == 1 && length == 0) || last == end || *last != (kind == 1 ? '>' : '"'))
        return NULL;
    out->at = p + 1;
    out->length = length;
    out->kind = kind;
    return last + 1;
}

static const unsigned char *space(const unsigned char *p, const unsigned char *end)
{
    return p && p < end && *p == ' ' ? p + 1 : NULL;
}

static int opening(const unsigned char *p, const unsigned char *end, Term *name)
{
    return end - p > 6 && memcmp(p, "@page ", 6) == 0 && term(p + 6, end, 1, name) == end;
}

static int statement(const unsigned char *p, const unsigned char *end, Term t[3])
{
    if (!(p = space(term(p, end, 1, &t[0]), end)) || !(p = space(term(p, end, 1, &t[1]), end)))
        return 0;
    p = term(p, end, p < end && *p == '"' ? 2 : 1, &t[2]);
    return p && end - p == 2 && p[0] == ' ' && p[1] == '.';
}

/* -1 absent, -2 broken, or the length of the list; the triple at a place */
static long scan(const unsigned char *name, size_t length, size_t place, Term wanted[3])
{
    const unsigned char *p = file, *end = file + size;
    long count = -1;
    int open = 0;
    while (p < end) {
        const unsigned char *stop = line_end(p, end);
        Term t[3];
        if (p < stop && opening(p, stop, &t[0])) {
            open = t[0].length == length && memcmp(t[0].at, name, length) == 0;
            if (open && count >= 0)
                return -2;
            if (open)
                count = 0;
        } else if (open && p < stop) {
            if (!statement(p, stop, t))
                return -2;
            if ((size_t)count == place)
                memcpy(wanted, t, sizeof t);
            count++;
        }
        p = stop + 1;
    }
    return count;
}

int main(void)
{
    for (int b = 0x20; b < 256; b++) {
        if (b == 0x7f)
            continue;
        literal_byte[b] = b != '"' && b != '\\';
        iri_byte[b] = b != ' ' && !strchr("<>\"{}|^\\`", b);
    }
    size = fread(file, 1, sizeof file, stdin);
    uint64_t lookups = 0, terms = 0, bytes = 0;
    for (const unsigned char *p = file, *end = file + size; p < end;) {
        const unsigned char *stop = line_end(p, end);
        Term name, wanted[3];
        if (opening(p, stop, &name)) {
            lookups++;
            long count = scan(name.at, name.length, 0, wanted);
            for (long place = 0; place < count; place++)
                for (int part = 0; part < 3; part++) {
                    unsigned char buffer[128];
                    if (scan(name.at, name.length, (size_t)place, wanted) <= place)
                        continue;
                    memcpy(buffer, wanted[part].at, wanted[part].length);
                    terms++;
                    for (size_t i = 0; i < wanted[part].length; i++)
                        bytes += buffer[i];
                }
        }
        p = stop + 1;
    }
    printf("lookups %llu terms %llu bytes %llu\n", (unsigned long long)lookups, (unsigned long long)terms, (unsigned long long)bytes);
    return 0;
}
