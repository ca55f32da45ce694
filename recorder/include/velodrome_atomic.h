/* VELODROME_ATOMIC("name"); the rest of this scope is meant to be atomic. It costs nothing where
 * the recorder is not linked. */
#ifndef VELODROME_ATOMIC
#ifdef __cplusplus
extern "C" {
#endif
void velodrome_atomic_begin(const char *name) __attribute__((weak));
void velodrome_atomic_end(void) __attribute__((weak));
#ifdef __cplusplus
}
#endif
__attribute__((no_sanitize("thread"), unused)) static inline void
velodrome_atomic_over_(const char **name) {
    (void)name;
    if (velodrome_atomic_end)
        velodrome_atomic_end();
}
#define VELODROME_JOIN_(a, b) a##b
#define VELODROME_NAME_(n) VELODROME_JOIN_(velodrome_atomic_, n)
#define VELODROME_ATOMIC(name)                                                                     \
    const char *VELODROME_NAME_(__LINE__)                                                          \
        __attribute__((cleanup(velodrome_atomic_over_), unused)) =                                 \
            (velodrome_atomic_begin ? velodrome_atomic_begin(name) : (void)0, name)
#endif
