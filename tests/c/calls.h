/* The steps by name: each makes a call and gives its result, which is then shown. */
#ifndef CALLS_H
#define CALLS_H

struct step {
    const char *name;
    unsigned (*make)(void);
    void (*show)(unsigned);
};

const struct step *step_named(const char *name);

#endif
