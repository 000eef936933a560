/* A library to preload: the program that it is loaded into runs its `main` once for each input, and reads and writes what this library
   gives and takes. So one process answers many inputs, and the sizes of the pieces that it reads can be chosen.

   Standard input: for each input its length and the size of a piece (numbers of 4 bytes, little-endian), then its bytes. A read gives
   one piece, or less if less is left or asked for. What the program writes goes to standard output, with a byte 0 after each input's. */
#define _GNU_SOURCE
#include <dlfcn.h>
#include <stdint.h>
#include <stdio.h>
#include <stdlib.h>
#include <string.h>
#include <unistd.h>

typedef int program(int, char **, char **);
typedef int starter(program *, int, char **, void (*)(void), void (*)(void), void (*)(void), void *);

static program *fed;
static uint8_t *input;
static uint32_t head[2];
static size_t at;

ssize_t read(int file, void *bytes, size_t room)
{
    if (file != STDIN_FILENO)
        abort();
    size_t count = head[0] - at;
    count = count < head[1] ? count : head[1];
    count = count < room ? count : room;
    memcpy(bytes, input + at, count);
    at += count;
    return (ssize_t)count;
}

ssize_t write(int file, const void *bytes, size_t count)
{
    if (file != STDOUT_FILENO || fwrite_unlocked(bytes, 1, count, stdout) != count)
        abort();
    return (ssize_t)count;
}

static int each_input(int count, char **words, char **environment)
{
    while (fread(head, sizeof head, 1, stdin) == 1) {
        input = realloc(input, head[0] + 1);
        at = 0;
        if (input == NULL || fread(input, 1, head[0], stdin) != head[0] || fed(count, words, environment) != 0)
            abort();
        putchar_unlocked(0);
    }
    return 0;
}

int __libc_start_main(program *main, int count, char **words, void (*init)(void), void (*fini)(void), void (*end)(void), void *stack)
{
    starter *start = (starter *)dlsym(RTLD_NEXT, "__libc_start_main");
    fed = main;
    return start(each_input, count, words, init, fini, end, stack);
}
