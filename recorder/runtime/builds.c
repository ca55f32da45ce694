// Which builds of the program and its libraries ran: velodrome-log reads names in no other.
#include "runtime.h"
#include <elf.h>
#include <errno.h>
#include <link.h>
#include <stdio.h>
#include <string.h>
#include <sys/stat.h>
#include <sys/syscall.h>
#include <unistd.h>

#define ID_MOST 64 // bytes of a build id

static void append_hex(char *to, const u8 *bytes, u64 n) {
    for (u64 i = 0; i < n && i < ID_MOST; i++)
        sprintf(to + 2 * i, "%02x", bytes[i]);
}
// The build id among the notes of a module; `-` where the linker wrote none.
static void find_id(const char *notes, u64 length, u64 alignment, char *id) {
    u64 unit = alignment == 8 ? 8 : 4;
    for (u64 at = 0; at + sizeof(ElfW(Nhdr)) <= length;) {
        const ElfW(Nhdr) *n = (const ElfW(Nhdr) *)(notes + at);
        u64 name = at + sizeof *n;
        u64 content = (name + n->n_namesz + unit - 1) / unit * unit;
        if (content + n->n_descsz > length)
            return;
        if (n->n_type == NT_GNU_BUILD_ID && n->n_namesz == 4 && !memcmp(notes + name, "GNU", 4)) {
            append_hex(id, (const u8 *)notes + content, n->n_descsz);
            return;
        }
        at = (content + n->n_descsz + unit - 1) / unit * unit;
    }
}
// One line: `build ID SIZE MTIME ADDRESS PATH`.
static int tell_build(struct dl_phdr_info *m, size_t size, void *to) {
    char id[2 * ID_MOST + 1] = "-", line[4500];
    const char *path = *m->dlpi_name ? m->dlpi_name : "/proc/self/exe";
    u64 low = ~0ull;
    struct stat s;
    (void)size;
    for (int i = 0; i < m->dlpi_phnum; i++) {
        const ElfW(Phdr) *p = &m->dlpi_phdr[i];
        u64 at = m->dlpi_addr + p->p_vaddr;
        if (p->p_type == PT_LOAD && at < low)
            low = at;
        if (p->p_type == PT_NOTE && *id == '-')
            find_id((const char *)at, p->p_memsz, p->p_align, id);
    }
    if (low == ~0ull || stat(path, &s))
        return 0;
    int n = snprintf(line, sizeof line, "build %s %ld %ld %lx %s\n", id, (long)s.st_size,
                     (long)s.st_mtime, (unsigned long)(low & -4096ul), path);
    ssize_t written = syscall(SYS_write, *(int *)to, line, n);
    (void)written;
    return 0;
}
void trace_builds(void) {
    int e = errno, to = sealed ? -1 : kept_file(MAPS);
    if (to >= 0)
        dl_iterate_phdr(tell_build, &to);
    errno = e;
}
