/* copies LIBRARY: a part of the process that brings a second copy of this layer, as a plugin which
 * is linked statically does. Each sees its own part of the program, and the session says so. */
#include "velodrome_session.h"
#include <dlfcn.h>
#include <stdio.h>
#include <string.h>

static int failed;
static void expect(vs_verdict wanted, const char *words) {
    static vs_object x = VS_OBJECT("x");
    char *report;
    vs_session s = vs_open(NULL, true);
    vs_after(vs_before(&x, VS_WRITE));
    vs_verdict got = vs_close(s, &report);
    if (got != wanted || (words && !(report && strstr(report, words)))) {
        printf("    %d: %s\n", got, report ? report : "");
        failed = 1;
    }
    vs_free(report);
}

int main(int argc, char **argv) {
    expect(VS_CLEAN, NULL);
    void *part = argc > 1 ? dlopen(argv[1], RTLD_NOW | RTLD_LOCAL) : NULL;
    if (!part) {
        printf("    %s\n", dlerror());
        return 1;
    }
    expect(VS_INCOMPLETE, "two copies of the session layer");
    dlclose(part);
    return failed;
}
