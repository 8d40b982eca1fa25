/* The results as JSON. Tested, not proved. */

/* Returns the length of the UTF-8 character at the begin of a text, or 0 if there is none. */
static size_t character_length(const unsigned char *text) {
    static const uint32_t least[] = {0, 0, 0x80, 0x800, 0x10000};
    size_t length = *text < 0x80 ? 1 : *text < 0xc0 ? 0 : *text < 0xe0 ? 2 : *text < 0xf0 ? 3 : *text < 0xf8 ? 4 : 0;
    if (length < 2) return length;
    uint32_t number = *text & 0x7fu >> length;
    for (size_t at = 1; at < length; at++) {
        if ((text[at] & 0xc0) != 0x80) return 0;
        number = number << 6 | (text[at] & 0x3fu);
    }
    bool is_surrogate = number >> 11 == 0x1b;
    return number < least[length] || number > 0x10ffff || is_surrogate ? 0 : length;
}

/* A byte that isn't UTF-8 becomes the replacement character. */
static void print_string(const char *text) {
    putchar('"');
    while (*text) {
        unsigned char byte = (unsigned char)*text;
        size_t length = character_length((const unsigned char *)text);
        if (byte == '"' || byte == '\\') printf("\\%c", byte);
        else if (byte == '\n') printf("\\n");
        else if (byte < ' ') printf("\\u%04x", byte);
        else if (length) fwrite(text, 1, length, stdout);
        else printf("\\ufffd");
        text += length ? length : 1;
    }
    putchar('"');
}

/* A sum over a set, which doesn't depend on the order of its members. */
static unsigned long long sum_of(const struct set *set) {
    uint64_t sum = 0;
    for (size_t at = 0; at < set->room; at++) {
        uint64_t member = set->members[at] * 0x9e3779b97f4a7c15u;
        sum += member ^ member >> 29;
    }
    return sum;
}

static void print_json(const struct search *s, double taken, const char *bound) {
    char words[WORDS];
    printf("{\"program\": [");
    for (char **word = s->options->words; *word; word++) {
        if (word != s->options->words) printf(", ");
        print_string(*word);
    }
    printf("], \"runs\": %ld, \"seconds\": %.3f, \"longest\": %u, ", s->runs, taken, s->longest);
    printf("\"orders\": %zu, \"orders_sum\": \"%016llx\", ", s->orders.count, sum_of(&s->orders));
    printf("\"outputs\": %zu, \"outputs_sum\": \"%016llx\", ", s->outputs.count, sum_of(&s->outputs));
    printf("\"bound\": ");
    print_string(bound);
    printf(", \"failures\": [");
    for (int at = 0; at < s->finding_count; at++) {
        const struct finding *f = &s->findings[at];
        printf("%s{\"run\": %ld, \"delays\": %u, \"early\": %u, \"what\": ", at ? ", " : "", f->number, f->delays,
               f->early_times);
        print_string(outcome_words(s->programs[0].run, f->outcome, words));
        printf(", \"text\": ");
        print_string(f->text ? f->text : "");
        printf("}");
    }
    printf("]}\n");
}
