/* The places of a crash in the program's source, by addr2line if the host has it. Tested, not proved. */
enum { PATH = 512 };

/* A file that the program has loaded, and the part of it at an address. */
struct loaded {
    char path[PATH];
    unsigned long base; /* the address of the file's begin */
};

/* Finds the file at an address. */
static bool find_file(pid_t server, unsigned long address, struct loaded *found) {
    char maps[64], line[PATH + 128];
    bool is_found = false;
    snprintf(maps, sizeof maps, "/proc/%d/maps", (int)server);
    FILE *file = fopen(maps, "r");
    while (file && !is_found && fgets(line, sizeof line, file)) {
        unsigned long from, to, offset;
        char path[PATH] = "";
        int count = sscanf(line, "%lx-%lx %*s %lx %*s %*s %511[^\n]", &from, &to, &offset, path);
        if (count != 4 || *path != '/') continue;
        if (!offset) found->base = from;
        is_found = address >= from && address < to;
        if (is_found) strcpy(found->path, path);
    }
    if (file) fclose(file);
    return is_found;
}

/* Whether a file has the addresses that it is loaded at, as a program that isn't position-independent. */
static bool is_fixed(const char *path) {
    unsigned char head[18] = {0};
    FILE *file = fopen(path, "r");
    if (file && fread(head, 1, sizeof head, file) != sizeof head) head[16] = 0;
    if (file) fclose(file);
    return head[16] == 2; /* ET_EXEC */
}

/* Writes an address's function and line. Returns false if the file isn't the program or has no such line. */
static bool find_line(const struct program *p, unsigned long address, const char *program, char words[PATH]) {
    struct loaded file = {.base = 0};
    char command[2 * PATH], function[PATH] = "", line[PATH] = "";
    if (!find_file(p->server, address, &file) || strcmp(file.path, program)) return false;
    unsigned long inside = is_fixed(file.path) ? address : address - file.base;
    if (strchr(file.path, '\'')) return false;
    snprintf(command, sizeof command, "addr2line -f -s -e '%s' %#lx 2>&1", file.path, inside);
    FILE *out = popen(command, "re");
    bool is_read = out && fscanf(out, "%511s %511s", function, line) == 2;
    if (out) pclose(out);
    if (is_read && *function != '?') snprintf(words, PATH, "%.200s, %.200s", function, line);
    else snprintf(words, PATH, "%#lx", inside);
    return true;
}

/* Writes the place in the program at which a run crashed: the innermost function that isn't the library's. Returns
 * false if it isn't known. */
static bool crash_place(const struct program *p, char words[PATH]) {
    char link[64], program[PATH] = "";
    snprintf(link, sizeof link, "/proc/%d/exe", (int)p->server);
    if (readlink(link, program, sizeof program - 1) < 0) return false;
    for (uint32_t at = 0; at < p->run->frame_count; at++) {
        bool is_ours = find_line(p, p->run->frames[at] - (at > 0), program, words);
        if (is_ours && strncmp(words, "note_crash", 10)) return true;
    }
    return false;
}
