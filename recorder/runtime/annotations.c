// What a program that knows ThreadSanitizer tells it: locks and orders of its own. The rest asks
// for nothing here.
#include "runtime.h"

#define READ_LOCK (1 << 3)
#define TRY_LOCK (1 << 4)
#define TRY_LOCK_FAILED (1 << 5)

static void lock(void *m, int shared, int tried, u64 code) {
    struct self *t = enter();
    if (!t)
        return;
    sync_event(t, (shared ? ACQS : ACQ) | (tried ? TRIED : 0) << 8, (u64)m, code);
    leave(t);
}
API void __tsan_mutex_post_lock(void *m, unsigned flags, int recursion) {
    (void)recursion;
    if (!(flags & TRY_LOCK_FAILED))
        lock(m, (flags & READ_LOCK) != 0, (flags & TRY_LOCK) != 0, CALLER);
}
API int __tsan_mutex_pre_unlock(void *m, unsigned flags) {
    note(flags & READ_LOCK ? RELS : REL, (u64)m, CALLER);
    return 0;
}
API void AnnotateRWLockAcquired(const char *file, int line, void *m, long alone) {
    (void)file, (void)line;
    lock(m, !alone, 0, CALLER);
}
API void AnnotateRWLockReleased(const char *file, int line, void *m, long alone) {
    (void)file, (void)line;
    note(alone ? REL : RELS, (u64)m, CALLER);
}
API void AnnotateHappensBefore(const char *file, int line, void *a) {
    (void)file, (void)line;
    note(SWR, (u64)a, CALLER);
}
API void AnnotateHappensAfter(const char *file, int line, void *a) {
    (void)file, (void)line;
    note(SRD, (u64)a, CALLER);
}

#define NOTHING(name)                                                                              \
    API void *name(void) {                                                                         \
        return 0;                                                                                  \
    }
NOTHING(__tsan_mutex_create)
NOTHING(__tsan_mutex_destroy)
NOTHING(__tsan_mutex_pre_lock)
NOTHING(__tsan_mutex_post_unlock)
NOTHING(__tsan_mutex_pre_signal)
NOTHING(__tsan_mutex_post_signal)
NOTHING(__tsan_mutex_pre_divert)
NOTHING(__tsan_mutex_post_divert)
NOTHING(__tsan_flush_memory)
NOTHING(AnnotateIgnoreReadsBegin)
NOTHING(AnnotateIgnoreReadsEnd)
NOTHING(AnnotateIgnoreWritesBegin)
NOTHING(AnnotateIgnoreWritesEnd)
NOTHING(AnnotateIgnoreSyncBegin)
NOTHING(AnnotateIgnoreSyncEnd)
NOTHING(AnnotateRWLockCreate)
NOTHING(AnnotateRWLockCreateStatic)
NOTHING(AnnotateRWLockDestroy)
NOTHING(AnnotateBenignRace)
NOTHING(AnnotateBenignRaceSized)
NOTHING(AnnotateNewMemory)
NOTHING(AnnotateEnableRaceDetection)
NOTHING(AnnotateThreadName)
NOTHING(AnnotateFlushState)
NOTHING(AnnotateMutexIsUsedAsCondVar)
NOTHING(AnnotatePublishMemoryRange)
NOTHING(AnnotateUnpublishMemoryRange)
NOTHING(AnnotateMemoryIsInitialized)
NOTHING(AnnotateNoOp)
NOTHING(AnnotatePCQCreate)
NOTHING(AnnotatePCQDestroy)
NOTHING(AnnotatePCQPut)
NOTHING(AnnotatePCQGet)
NOTHING(AnnotateTraceMemory)
NOTHING(AnnotateExpectRace)
NOTHING(AnnotateMemoryIsUninitialized)
NOTHING(AnnotateCondVarSignal)
NOTHING(AnnotateCondVarSignalAll)
NOTHING(AnnotateCondVarWait)
NOTHING(WTFAnnotateHappensBefore)
NOTHING(WTFAnnotateHappensAfter)
NOTHING(WTFAnnotateBenignRaceSized)
API int RunningOnValgrind(void) {
    return 0;
}
