/* proved.h: the calls of crates/velo_ffi, as they are proved. velodrome.c alone includes it. No
 * pointer is null, a slice of no bytes included; a handle is what velo_open left there, and goes
 * where it likes. */
#ifndef VELODROME_PROVED_H
#define VELODROME_PROVED_H
#include "velodrome.h"

struct velodrome {
    bool live;
    struct {
        void *address;
    } kept;
};

uint32_t velo_open(velodrome *monitor, uint32_t threads, uint32_t variables, uint32_t locks,
                   uint32_t events, uint32_t nodes);
uint32_t velo_close(velodrome *monitor);
uint32_t velo_read(velodrome *monitor, uint32_t thread, uint32_t variable,
                   velodrome_answer *answer);
uint32_t velo_write(velodrome *monitor, uint32_t thread, uint32_t variable, uint64_t value,
                    velodrome_answer *answer);
uint32_t velo_acquire(velodrome *monitor, uint32_t thread, uint32_t lock, velodrome_answer *answer);
uint32_t velo_release(velodrome *monitor, uint32_t thread, uint32_t lock, velodrome_answer *answer);
uint32_t velo_acquire_shared(velodrome *monitor, uint32_t thread, uint32_t lock,
                             velodrome_answer *answer);
uint32_t velo_release_shared(velodrome *monitor, uint32_t thread, uint32_t lock,
                             velodrome_answer *answer);
uint32_t velo_begin(velodrome *monitor, uint32_t thread, uint32_t label, velodrome_answer *answer);
uint32_t velo_end(velodrome *monitor, uint32_t thread, velodrome_answer *answer);
uint32_t velo_fork(velodrome *monitor, uint32_t thread, uint32_t child, velodrome_answer *answer);
uint32_t velo_join(velodrome *monitor, uint32_t thread, uint32_t child, velodrome_answer *answer);
uint32_t velo_exit(velodrome *monitor, uint32_t thread, velodrome_answer *answer);
uint32_t velo_renew(velodrome *monitor);
uint32_t velo_verdict(velodrome *monitor, velodrome_summary *summary);
uint32_t velo_blamed(velodrome *monitor, velodrome_block *buffer, size_t room, size_t *count);
uint32_t velo_log(velodrome *monitor, size_t from, char *buffer, size_t room, size_t *count,
                  size_t *next);
uint32_t velo_report(velodrome *monitor, const char *names, size_t bytes, char *buffer, size_t room,
                     size_t *count);
uint32_t velo_explanation(velodrome *monitor, const char *names, size_t bytes, char *buffer,
                          size_t room, size_t *count);
uint32_t velo_explanation_sited(velodrome *monitor, const char *names, size_t bytes,
                                const char *sites, size_t site_bytes, char *buffer, size_t room,
                                size_t *count);
uint32_t velo_words(uint32_t status, char *buffer, size_t room, size_t *count);

#endif
