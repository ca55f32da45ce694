// VELODROME_SITES: which accesses are noted, by their code addresses, as an earlier run tells.
#include "runtime.h"
#include <errno.h>
#include <link.h>
#include <stdio.h>
#include <string.h>
#include <sys/mman.h>
#include <unistd.h>

#define MOST 262144
u64 *sites;
static int all_but; // the list has what is not noted
static u64 slot(u64 code) {
    return code * 0x9e3779b97f4a7c15ull >> 40;
}
static int is_listed(u64 code) {
    for (u64 h = slot(code);; h++) {
        u64 s = sites[h % (2 * MOST)];
        if (s == code)
            return 1;
        if (!s)
            return 0;
    }
}
int is_noted(u64 code) {
    return is_listed(code) != all_but;
}
struct wanted {
    char name[4096];
    u64 base;
    int found;
};
static int find_base(struct dl_phdr_info *info, size_t size, void *to) {
    struct wanted *w = to;
    char program[4096];
    const char *name = info->dlpi_name;
    (void)size;
    if (!*name) {
        ssize_t n = readlink("/proc/self/exe", program, sizeof program - 1);
        program[n > 0 ? n : 0] = 0;
        name = program;
    }
    if (strcmp(name, w->name))
        return 0;
    w->base = info->dlpi_addr;
    return w->found = 1;
}
static void add(u64 code) {
    u64 h = slot(code);
    while (sites[h % (2 * MOST)])
        h++;
    sites[h % (2 * MOST)] = code;
}
// Lines: code address in its module, module. With `-` before them: all others are noted. With `+`:
// one of the others.
static int read_line(const char *line, u64 *at, char *name) {
    char sign = 0;
    if (*line == '-' || *line == '+')
        sign = *line++;
    all_but |= sign == '-';
    return sign != '+' && sscanf(line, "%lx %4095[^\n]", at, name) == 2;
}
int sites_open(const char *path) {
    char line[4200], name[4096];
    static struct wanted of; // the module of the line before
    u64 n = 0, at;
    FILE *f = fopen(path, "re");
    if (f)
        sites = mmap(0, 2 * MOST * sizeof *sites, PROT_READ | PROT_WRITE,
                     MAP_PRIVATE | MAP_ANONYMOUS, -1, 0);
    if (!f || sites == MAP_FAILED) {
        say("nothing is recorded: %s: %s", path, strerror(errno));
        sites = 0;
        if (f)
            fclose(f);
        return 0;
    }
    while (n < MOST && fgets(line, sizeof line, f)) {
        if (!read_line(line, &at, name))
            continue;
        if (strcmp(name, of.name)) {
            of = (struct wanted){0};
            strcpy(of.name, name);
            dl_iterate_phdr(find_base, &of);
        }
        if (of.found)
            add(at + of.base), n++;
    }
    fclose(f);
    return 1;
}
