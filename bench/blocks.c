// Reports the blocks of memory that a program takes, for bench/lines.py and scripts that use it. It is loaded
// before the C library, and passes each request to it. It writes a line for each request to descriptor 9, at
// once or, with BLOCKS_KEPT, at the program's end. Then no other thread runs in between because of a write.
#define _GNU_SOURCE
#include <link.h>
#include <stddef.h>
#include <stdlib.h>
#include <string.h>

void *__libc_malloc(size_t);
void *__libc_calloc(size_t, size_t);
void *__libc_realloc(void *, size_t);
void *__libc_memalign(size_t, size_t);
void __libc_free(void *);

static char kept[1 << 20]; // the text that is written at the end
static size_t kept_length;
static int keeps;

// One write by the kernel, without the C library, whose lines would be counted.
static void put(const char *text, size_t length) {
    long result;
    if (keeps && length <= sizeof kept - kept_length) {
        for (size_t k = 0; k < length; k++)
            kept[kept_length++] = text[k];
        return;
    }
    __asm__ volatile("syscall"
                     : "=a"(result)
                     : "a"(1), "D"(9), "S"(text), "d"(length)
                     : "rcx", "r11", "memory");
}

static char *hex(char *to, size_t number) {
    for (int shift = 60; shift >= 0; shift -= 4)
        *to++ = "0123456789abcdef"[number >> shift & 15];
    *to++ = ' ';
    return to;
}

// A block that is taken: its address and its size. A block that is given back has the size 0.
__attribute__((noinline)) void blocks_tell(void *block, size_t size) {
    char line[36], *end = hex(hex(line, (size_t)block), size);
    end[-1] = '\n';
    put(line, end - line);
}

void *malloc(size_t size) {
    void *block = __libc_malloc(size);
    blocks_tell(block, size);
    return block;
}

void *calloc(size_t many, size_t size) {
    void *block = __libc_calloc(many, size);
    blocks_tell(block, many * size);
    return block;
}

void *realloc(void *old, size_t size) {
    blocks_tell(old, 0);
    void *block = __libc_realloc(old, size);
    blocks_tell(block, size);
    return block;
}

void *memalign(size_t to, size_t size) {
    void *block = __libc_memalign(to, size);
    blocks_tell(block, size);
    return block;
}

void *aligned_alloc(size_t to, size_t size) { return memalign(to, size); }

int posix_memalign(void **block, size_t to, size_t size) {
    *block = memalign(to, size);
    return *block ? 0 : 12;
}

void free(void *block) {
    blocks_tell(block, 0);
    __libc_free(block);
}

// A module of the program: the beginning of its addresses, its least and its greatest address, and its file.
static int module(struct dl_phdr_info *info, size_t size, void *unused) {
    size_t least = ~(size_t)0, most = 0;
    for (int k = 0; k < info->dlpi_phnum; k++) {
        const ElfW(Phdr) *part = &info->dlpi_phdr[k];
        if (part->p_type != PT_LOAD)
            continue;
        size_t from = info->dlpi_addr + part->p_vaddr, to = from + part->p_memsz;
        least = from < least ? from : least;
        most = to > most ? to : most;
    }
    char line[3 * 17];
    put("module ", 7);
    put(line, hex(hex(hex(line, info->dlpi_addr), least), most) - line);
    put(info->dlpi_name, strlen(info->dlpi_name));
    put("\n", 1);
    return 0;
}

// All blocks are BLOCKS_SHIFT bytes further on.
__attribute__((constructor)) static void begin(void) {
    char line[17];
    put("begin\n", 6);
    dl_iterate_phdr(module, NULL);
    put("tell ", 5);
    hex(line, (size_t)blocks_tell)[-1] = '\n';
    put(line, sizeof line);
    keeps = getenv("BLOCKS_KEPT") != NULL;
    const char *shift = getenv("BLOCKS_SHIFT");
    if (shift && !malloc(24 + atoi(shift)))
        abort();
}

__attribute__((destructor)) static void end(void) {
    keeps = 0;
    put(kept, kept_length);
}
