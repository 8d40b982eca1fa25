/* Finds another copy of the front in the program. Tested, not proved.
 *
 * A program and a library that it loads may each be linked with the front. Then each copy would open a
 * kernel, and the ids of one kernel would mean nothing in the other. So only the first copy that makes a call
 * opens a kernel. Each copy has an ELF note in the program's memory, by which the other copies find its
 * mark. */
#include <link.h>

static atomic_int opened; /* the mark: 1 if this copy has opened a kernel */

/* Two copies, by the files that they are in. */
struct copies {
    const char *own, *other;
};

/* A note, whose name is 12 bytes long. The offset is the distance from itself to the mark. */
struct note_of_copy {
    uint32_t name_length, offset_length, type;
    char name[12], offset[8];
};

static void look_at_note(const struct note_of_copy *note, const char *file, struct copies *found) {
    int64_t offset;
    memcpy(&offset, note->offset, sizeof offset);
    const atomic_int *mark = (const atomic_int *)((uintptr_t)note->offset + (uintptr_t)offset); /* in another object */
    if (mark == &opened) found->own = file;
    else if (atomic_load(mark)) found->other = file;
}

/* Looks at the notes of a file that the program has loaded. */
static int look_at_file(struct dl_phdr_info *file, size_t size, void *found) {
    const char *name = *file->dlpi_name ? file->dlpi_name : "the program";
    (void)size;
    for (int at = 0; at < file->dlpi_phnum; at++) {
        const ElfW(Phdr) *segment = &file->dlpi_phdr[at];
        if (segment->p_type != PT_NOTE || segment->p_align > 8) continue;
        const char *from = (const char *)file->dlpi_addr + segment->p_vaddr, *end = from + segment->p_memsz;
        size_t unit = segment->p_align == 8 ? 8 : 4;
        while ((size_t)(end - from) >= sizeof(struct note_of_copy)) {
            const struct note_of_copy *note = (const struct note_of_copy *)from;
            bool is_copy = note->name_length == sizeof note->name && note->offset_length == sizeof note->offset;
            if (is_copy && !memcmp(note->name, "balsaeuchre", sizeof note->name)) look_at_note(note, name, found);
            size_t length = (sizeof(ElfW(Nhdr)) + note->name_length + unit - 1) / unit * unit;
            length = (length + note->offset_length + unit - 1) / unit * unit;
            if (length > (size_t)(end - from)) break;
            from += length;
        }
    }
    return 0;
}

/* Marks this copy as the copy with the kernel. If another copy has that mark, it fails with ENOTSUP, and
 * prints a message once. */
static __attribute__((noinline)) int mark_copy(void) {
    static bool has_said;
    struct copies found = {"this file", NULL};
    __asm__ volatile(".pushsection .note.balsaeuchre, \"a\", @note\n"
                     ".balign 4\n.long 12, 8, 1\n.asciz \"balsaeuchre\"\n.quad %c0 - .\n"
                     ".popsection"
                     :
                     : "i"(&opened));
    atomic_store(&opened, 1);
    dl_iterate_phdr(look_at_file, &found);
    if (!found.other) return 0;
    atomic_store(&opened, 0);
    if (!has_said)
        dprintf(STDERR_FILENO,
                "balsaeuchre: %s has the kernel of this process, and %s was linked with another copy of the "
                "library, which can't use it: link the program with -rdynamic, or link both with "
                "libbalsaeuchre-qnx.so, so that both use one copy\n",
                found.other, found.own);
    has_said = true;
    return fail(ENOTSUP);
}
