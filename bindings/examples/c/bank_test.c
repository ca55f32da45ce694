/* bank_test NAME: one test, a session. It fails where its blocks were not atomic, and prints which.
 * With VELODROME_INCOMPLETE=warn one that is incomplete is skipped. */
#include "bank.h"
#include <stdio.h>
#include <string.h>

enum { FAILED = 1, SKIPPED = 77 }; /* as CMakeLists.txt has it */

static void (*tested)(account *, long);

static void *pay(void *a) {
    tested(a, 5);
    return NULL;
}

static void two_threads(void) {
    account a = ACCOUNT;
    vs_thread threads[2];
    for (int i = 0; i < 2; i++)
        vs_thread_create(&threads[i], NULL, pay, &a);
    for (int i = 0; i < 2; i++)
        vs_thread_join(&threads[i], NULL);
}

int main(int argc, char **argv) {
    const char *name = argc > 1 ? argv[1] : "careful";
    tested = strcmp(name, "careless") ? deposit : deposit_carelessly;
    vs_options options = {0};
    vs_environment(&options);
    vs_session session = vs_open(&options, true);
    two_threads();
    char *report;
    bool fails;
    vs_verdict verdict = vs_finish(session, name, &report, &fails);
    if (report)
        fputs(report, stderr);
    vs_free(report);
    return fails ? FAILED : verdict == VS_INCOMPLETE ? SKIPPED : 0;
}
