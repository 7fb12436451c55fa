/* What the peers' programs share. Packets go in and out each after its length in four bytes; a packet's tree is a line of tokens:
 *
 *     /2f61 i00000005 s6869 [ T . .     a message with its address in hex, its arguments by tag and value in hex, an array
 *     #0000000000000001 /2f61 . .      a bundle with its time tag and what it contains
 *
 * A dot closes a message, bundle or array. Numbers are the bytes of the packet; floats are their bits. */
#ifndef PEERS_TREE_H
#define PEERS_TREE_H

#include <stdint.h>
#include <stdio.h>
#include <stdlib.h>
#include <string.h>

enum { LONGEST = 65535 };

static uint32_t word_at(const uint8_t *p) { return (uint32_t)p[0] << 24 | (uint32_t)p[1] << 16 | (uint32_t)p[2] << 8 | p[3]; }

static void put_word(uint8_t *p, uint32_t x) {
    for (int i = 0; i < 4; i++) p[i] = (uint8_t)(x >> (24 - 8 * i));
}

/* Reads the next packet, of at most one byte more than the codec takes; 0 at the end of the input. */
static int get_packet(uint8_t *packet, size_t *length) {
    uint8_t size[4];
    if (fread(size, 1, 4, stdin) != 4) return 0;
    *length = word_at(size);
    if (*length > LONGEST + 1 || fread(packet, 1, *length, stdin) != *length) exit(3);
    return 1;
}

static void put_packet(const void *packet, size_t length) {
    uint8_t size[4];
    put_word(size, (uint32_t)length);
    fwrite(size, 1, 4, stdout);
    fwrite(packet, 1, length, stdout);
}

static void say_bytes(char kind, const void *bytes, size_t length) {
    putchar(kind);
    for (size_t i = 0; i < length; i++) printf("%02x", ((const uint8_t *)bytes)[i]);
    putchar(' ');
}

static void say_word(char kind, uint32_t x) { printf("%c%08x ", kind, x); }
static void say_pair(char kind, uint32_t high, uint32_t low) { printf("%c%08x%08x ", kind, high, low); }
static void say_close(void) { printf(". "); }

/* A token: its kind, the bytes of its hex digits and how many there are, and those bytes as one or two words. */
typedef struct {
    char kind;
    uint8_t bytes[LONGEST];
    size_t length;
    uint32_t high, low;
} token;

static unsigned digit(char c) { return c <= '9' ? c - '0' : c - 'a' + 10; }

/* The next token of a line; 0 at the line's end. A NUL stands after its bytes. */
static int next_token(const char **line, token *t) {
    const char *p = *line;
    while (*p == ' ') p++;
    if (*p == '\n' || *p == 0) return 0;
    t->kind = *p++;
    for (t->length = 0; *p != ' ' && *p != '\n' && *p; p += 2) t->bytes[t->length++] = (uint8_t)(digit(p[0]) << 4 | digit(p[1]));
    t->bytes[t->length] = 0;
    t->high = t->length >= 4 ? word_at(t->bytes) : 0;
    t->low = t->length >= 8 ? word_at(t->bytes + 4) : 0;
    *line = p;
    return 1;
}

/* The next line of the input; NULL at its end. */
static const char *get_line(void) {
    static char *line;
    static size_t room;
    return getline(&line, &room, stdin) < 0 ? NULL : line;
}

#endif
