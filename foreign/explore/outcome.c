/* How a run has ended. Tested, not proved. */
enum { TSAN_STATUS = 66, LOST_STATUS = 125 };

static enum failure failure_at(enum explore_end end) {
    static const enum failure failures[] = {
        [DEADLOCK] = FAILED_DEADLOCK,     [ENDLESS] = FAILED_ENDLESS, [FAILED_CALL] = FAILED_ERROR,
        [UNKNOWN_THREAD] = FAILED_THREAD, [VISITED] = PASSED,         [FORKED] = FAILED_FORK,
        [REMOTE] = FAILED_DAEMON,         [NO_ROOM] = FAILED_ROOM,
    };
    return failures[end];
}

/* Whether the output of the last run is the expected output. The output of the first run that passes is the expected
 * output if the option's file is -. */
static bool is_expected(struct search *s, const struct program *p) {
    size_t length;
    if (!s->options->expect) return true;
    char *text = text_of(p->output, &length);
    if (!s->expected) {
        s->expected = text;
        s->expected_length = length;
        return true;
    }
    bool is_same = length == s->expected_length && !memcmp(text, s->expected, length);
    free(text);
    return is_same;
}

static struct outcome outcome_of(struct search *s, const struct program *p, int status) {
    const struct explore_run *run = p->run;
    if (p->was_killed) return (struct outcome){p->spins ? FAILED_SPINS : FAILED_STOPS, (int)run->running};
    if (run->end) return (struct outcome){failure_at(run->end), run->end == FAILED_CALL ? run->failed_error : 0};
    if (WIFSIGNALED(status)) return (struct outcome){FAILED_CRASH, WTERMSIG(status)};
    int code = WEXITSTATUS(status);
    if (code == TSAN_STATUS && run->has_tsan) return (struct outcome){FAILED_RACE, 0};
    if (code) return (struct outcome){FAILED_STATUS, code};
    if (!is_expected(s, p)) return (struct outcome){FAILED_OUTPUT, 0};
    return (struct outcome){PASSED, 0};
}

static bool is_same_outcome(struct outcome a, struct outcome b) {
    return a.failure == b.failure && a.detail == b.detail;
}

/* Makes a run, and waits for its end. */
static struct outcome make_run(struct search *s, struct program *p, const struct request *r) {
    int status;
    begin_run(p, s->options, r);
    while (!finish_run(p, &status, LOOK)) continue;
    p->outcome = outcome_of(s, p, status);
    return p->outcome;
}

/* Whether the choices of a run are as another run's were. */
static bool is_planned(const struct program *p, const uint64_t *states, const uint8_t *choices, uint32_t length) {
    if (p->run->choice_count < length) return false;
    for (uint32_t at = 0; at < length; at++) {
        const struct explore_choice *c = &p->run->choices[at];
        if (c->chosen != choices[at] || c->state != states[at]) return false;
    }
    return true;
}
