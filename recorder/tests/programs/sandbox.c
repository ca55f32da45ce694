// What a server does once it has started, and then the mistake. u: gives up its user; c: its root;
// uc: both; f: uses up its descriptors; x: closes all that it finds; e: a filter under which
// opening and allocating fail; k: one that kills.
#include "check_then_act.h"
#include <dirent.h>
#include <fcntl.h>
#include <linux/filter.h>
#include <linux/seccomp.h>
#include <stddef.h>
#include <sys/prctl.h>
#include <sys/resource.h>
#include <sys/syscall.h>

static void give_up_root(void) {
    if (chroot("/proc/self/fdinfo") || chdir("/"))
        perror("chroot");
}
static void give_up_user(void) {
    if (setgid(65534) || setuid(65534))
        perror("setuid");
}
static void use_up_descriptors(void) {
    struct rlimit r = {64, 64};
    setrlimit(RLIMIT_NOFILE, &r);
    while (open("/dev/null", O_RDONLY) >= 0) {
    }
}
static void close_all(void) {
    for (int i = 3; i < 8192; i++)
        close(i);
    close_range(3, ~0u, 0);
    syscall(SYS_close_range, 3, ~0u, 0);
    closefrom(3);
    for (int i = 3; i < 5000; i++)
        dup2(2, i);
}
static void filter(int act) {
    static const int refused[] = {SYS_openat,      SYS_open,       SYS_fallocate,
                                  SYS_ftruncate,   SYS_truncate,   SYS_nanosleep,
                                  SYS_sched_yield, SYS_gettid,     SYS_close,
                                  SYS_lseek,       SYS_read,       SYS_fcntl,

                                  SYS_getrlimit,   SYS_newfstatat, SYS_prctl,
                                  SYS_fstat,       SYS_pwrite64,   SYS_sched_getaffinity};
    enum { N = sizeof refused / sizeof *refused };
    struct sock_filter f[2 * N + 2] = {
        BPF_STMT(BPF_LD | BPF_W | BPF_ABS, offsetof(struct seccomp_data, nr))};
    for (int i = 0; i < N; i++) {
        f[2 * i + 1] =
            (struct sock_filter)BPF_JUMP(BPF_JMP | BPF_JEQ | BPF_K, (unsigned)refused[i], 0, 1);
        f[2 * i + 2] = (struct sock_filter)BPF_STMT(BPF_RET | BPF_K, (unsigned)act);
    }
    f[2 * N + 1] = (struct sock_filter)BPF_STMT(BPF_RET | BPF_K, SECCOMP_RET_ALLOW);
    struct sock_fprog p = {sizeof f / sizeof *f, f};
    prctl(PR_SET_NO_NEW_PRIVS, 1, 0, 0, 0);
    if (prctl(PR_SET_SECCOMP, SECCOMP_MODE_FILTER, &p))
        perror("seccomp");
}
int main(int n, char **how) {
    (void)n;
    static char out[BUFSIZ];
    setvbuf(stdout, out, _IOFBF, sizeof out);
    printf("ran");
    if (strchr(how[1], 'c'))
        give_up_root();
    if (strchr(how[1], 'u'))
        give_up_user();
    if (strchr(how[1], 'f'))
        use_up_descriptors();
    if (strchr(how[1], 'x'))
        close_all();
    if (strchr(how[1], 'e'))
        filter(SECCOMP_RET_ERRNO | EPERM);
    if (strchr(how[1], 'k'))
        filter(SECCOMP_RET_KILL_PROCESS);
    fill_trace();
    bump_by_two(50);
    puts(count > 0 ? " well" : " badly");
    return 0;
}
