/* velodrome._session: velodrome_session.h for Python.
 *
 * Every function holds the GIL from an event to its access, and does both in C, so an event is told
 * in the order of the accesses. No lock of the session is held while the GIL is waited for:
 * `pause_without_gil` is called before one is taken.
 *
 * Each call into the layer acts as somebody: `act` comes before it. */
#define PY_SSIZE_T_CLEAN
#include <Python.h>
#include <stddef.h>
#include <structmember.h>
#include <time.h>
#include "velodrome_session.h"

/* Python 3.9 has these too, but outside its stable ABI. */
PyAPI_FUNC(const char *) PyUnicode_AsUTF8AndSize(PyObject *text, Py_ssize_t *bytes);
#ifndef METH_FASTCALL
#define METH_FASTCALL 0x0080
#endif

/* Outside the stable ABI. The first is there from Python 3.11 on; null before. */
extern int PyFrame_GetLasti(PyFrameObject *frame) __attribute__((weak));
extern PyFrameObject *PyFrame_GetBack(PyFrameObject *frame) __attribute__((weak));

#define MAX_FILES (1u << 16) /* whose names are kept; events of others have no place */
#define MAX_LABELS 4096      /* that are found by their name; more are made again */
#define CO_GENERATOR 0x20
#define CO_COROUTINE (0x80 | 0x100) /* also one that types.coroutine made */
#define CO_ASYNC_GENERATOR 0x200

static PyObject *str_co_filename, *str_co_flags, *str_co_name, *str_f_back, *str_dict, *str_actor,
    *str_asyncio, *str_asyncio_tasks, *str_asyncio_events, *str_greenlet;

/* ---- tables by address */

typedef struct map {
    struct pair {
        const void *key;
        void *value;
    } * at;
    size_t count, room; /* a power of two */
} map;

static size_t home_of(const map *m, const void *key) {
    return (size_t)(((uintptr_t)key >> 4) * 0x9e3779b97f4a7c15ull >> 32) & (m->room - 1);
}

static struct pair *pair_of(const map *m, const void *key) {
    size_t i = home_of(m, key);
    while (m->at[i].key && m->at[i].key != key)
        i = (i + 1) & (m->room - 1);
    return &m->at[i];
}

static void *map_get(const map *m, const void *key) {
    return m->room ? pair_of(m, key)->value : NULL;
}

static bool map_grow(map *m) {
    if (2 * (m->count + 1) <= m->room)
        return true;
    map larger = {NULL, m->count, m->room ? 2 * m->room : 64};
    if (!(larger.at = PyMem_Calloc(larger.room, sizeof *larger.at)))
        return false;
    for (size_t i = 0; i < m->room; i++)
        if (m->at[i].key)
            *pair_of(&larger, m->at[i].key) = m->at[i];
    PyMem_Free(m->at);
    *m = larger;
    return true;
}

static bool map_put(map *m, const void *key, void *value) {
    if (!map_grow(m))
        return false;
    struct pair *p = pair_of(m, key);
    m->count += !p->key;
    *p = (struct pair){key, value};
    return true;
}

/* Takes a key out, and closes the gap: who stands behind it and would be found no more moves up. */
static void *map_take(map *m, const void *key) {
    struct pair *p = m->room ? pair_of(m, key) : NULL;
    if (!p || !p->key)
        return NULL;
    void *value = p->value;
    size_t gap = (size_t)(p - m->at), mask = m->room - 1;
    for (size_t i = (gap + 1) & mask; m->at[i].key; i = (i + 1) & mask) {
        size_t home = home_of(m, m->at[i].key);
        if (((i - home) & mask) < ((i - gap) & mask))
            continue;
        m->at[gap] = m->at[i];
        gap = i;
    }
    m->at[gap] = (struct pair){NULL, NULL};
    m->count--;
    return value;
}

/* ---- what is kept of an object of the program for as long as that lives */

typedef struct mortal {
    PyObject *reference; /* weak; null where the object is gone */
    void (*gone)(struct mortal *);
} mortal;

static map mortals;       /* by their weak references */
static PyObject *on_gone; /* what these call */

static PyObject *py_gone(PyObject *module, PyObject *reference) {
    (void)module;
    mortal *m = map_take(&mortals, reference);
    if (m) {
        m->reference = NULL;
        m->gone(m);
        Py_DECREF(reference);
    }
    Py_RETURN_NONE;
}

/* Whether `gone` will be called at the object's end. */
static bool bury(mortal *m, PyObject *object, void (*gone)(mortal *)) {
    m->gone = gone;
    m->reference = PyWeakref_NewRef(object, on_gone);
    if (m->reference && map_put(&mortals, m->reference, m))
        return true;
    PyErr_Clear();
    Py_CLEAR(m->reference);
    return false;
}

static void forget(mortal *m) {
    if (m->reference)
        map_take(&mortals, m->reference);
    Py_CLEAR(m->reference);
}

/* ---- code, and places */

typedef struct code {
    mortal life;
    const PyObject *address;
    const char *file; /* null where too many are kept */
    uint32_t file_bytes;
    bool suspends, coroutine; /* it is of a generator or coroutine; of the latter */
    bool library;             /* of Python's own library, or of this package */
    bool enters;              /* it begins the block of a `with` statement: that of its caller */
} code;

static map codes;
static PyObject *files;      /* each name to itself, for good */
static PyObject *is_library; /* a function of the package */
static PyObject *condition;  /* the code of threading.Condition.__init__ */
static bool with_places = true;

/* Lines of instructions, as the search for one takes longer than an event. */
static struct line {
    const PyObject *code;
    int instruction;
    uint32_t line;
} lines[1024];

static void code_gone(mortal *m) {
    code *c = (code *)m;
    for (size_t i = 0; i < sizeof lines / sizeof *lines; i++)
        if (lines[i].code == c->address)
            lines[i].code = NULL;
    map_take(&codes, c->address);
    PyMem_Free(c);
}

/* The same name, for good; borrowed. */
static PyObject *kept_name(PyObject *file) {
    PyObject *known = PyDict_GetItemWithError(files, file);
    if (known || PyErr_Occurred() || PyDict_Size(files) >= MAX_FILES)
        return known;
    return PyDict_SetItem(files, file, file) ? NULL : file;
}

static bool is_one_of(PyObject *name, const char *const *words) {
    for (; *words; words++)
        if (PyUnicode_CompareWithASCIIString(name, *words) == 0)
            return true;
    return false;
}

static bool fill_code(code *c, PyObject *object) {
    static const char *const enters[] = {"__enter__", "__aenter__", "enter_context",
                                         "enter_async_context", NULL};
    Py_ssize_t bytes = 0;
    PyObject *file = PyObject_GetAttr(object, str_co_filename),
             *name = PyObject_GetAttr(object, str_co_name),
             *flags = PyObject_GetAttr(object, str_co_flags);
    bool fine = file && name && flags;
    if (fine) {
        long bits = PyLong_AsLong(flags);
        PyObject *kept = kept_name(file),
                 *said = is_library ? PyObject_CallFunctionObjArgs(is_library, file, NULL) : NULL;
        c->file = kept ? PyUnicode_AsUTF8AndSize(kept, &bytes) : NULL;
        c->file_bytes = (uint32_t)bytes;
        c->suspends = (bits & (CO_GENERATOR | CO_COROUTINE | CO_ASYNC_GENERATOR)) != 0;
        c->coroutine = (bits & CO_COROUTINE) != 0;
        c->library = said == Py_True;
        c->enters = is_one_of(name, enters);
        Py_XDECREF(said);
    }
    PyErr_Clear();
    Py_XDECREF(file);
    Py_XDECREF(name);
    Py_XDECREF(flags);
    return fine;
}

static const code *new_code(PyObject *object) {
    code *c = PyMem_Calloc(1, sizeof *c);
    if (!c)
        return NULL;
    c->address = object;
    if (fill_code(c, object) && !map_get(&codes, object) && bury(&c->life, object, code_gone)) {
        if (map_put(&codes, object, c))
            return c;
        forget(&c->life);
    }
    PyMem_Free(c);
    return map_get(&codes, object);
}

/* What is known of the code of a frame; NULL where nothing can be. */
static const code *code_of(PyFrameObject *frame) {
    PyObject *object = (PyObject *)PyFrame_GetCode(frame);
    const code *known = map_get(&codes, object);
    if (!known)
        known = new_code(object);
    Py_DECREF(object); /* the frame has it */
    return known;
}

/* The caller, new; NULL where there is none, or the frame is suspended. */
static PyFrameObject *back(PyFrameObject *frame) {
    if (PyFrame_GetBack)
        return PyFrame_GetBack(frame);
    PyObject *outer = PyObject_GetAttr((PyObject *)frame, str_f_back);
    if (outer == Py_None)
        Py_CLEAR(outer);
    PyErr_Clear();
    return (PyFrameObject *)outer;
}

/* The caller, in the place of the frame. */
static void go_back(PyFrameObject **frame) {
    PyFrameObject *inner = *frame;
    *frame = back(inner);
    Py_DECREF(inner);
}

/* The innermost frame, new. */
static PyFrameObject *frame_here(void) {
    PyFrameObject *frame = PyEval_GetFrame();
    Py_XINCREF(frame);
    return frame;
}

static uint32_t line_of(PyFrameObject *frame, const code *c) {
    if (!PyFrame_GetLasti)
        return (uint32_t)PyFrame_GetLineNumber(frame);
    int instruction = PyFrame_GetLasti(frame);
    struct line *known = &lines[((uintptr_t)c->address >> 5 ^ (unsigned)instruction >> 1) %
                                (sizeof lines / sizeof *lines)];
    if (known->code != c->address || known->instruction != instruction)
        *known = (struct line){c->address, instruction, (uint32_t)PyFrame_GetLineNumber(frame)};
    return known->line;
}

static bool place_of(PyFrameObject *frame, const code *c, vs_place *place) {
    if (!c || !c->file)
        return false;
    *place = (vs_place){c->file, c->file_bytes, line_of(frame, c)};
    return true;
}

/* The first frame of the program from here on; where all are a library's, the innermost. */
static bool place_in_program(vs_place *place) {
    PyFrameObject *frame = frame_here();
    bool known = false;
    while (frame) {
        const code *c = code_of(frame);
        bool program = c && !c->library;
        if (program || !known)
            known = place_of(frame, c, place) || known;
        if (program)
            break;
        go_back(&frame);
    }
    Py_XDECREF(frame);
    return known;
}

/* The place of the caller, into `place`; NULL where there is none. */
static const vs_place *here(vs_place *place) {
    PyFrameObject *frame = with_places ? PyEval_GetFrame() : NULL;
    const code *c = frame ? code_of(frame) : NULL;
    if (!c)
        return NULL;
    return (c->library ? place_in_program(place) : place_of(frame, c, place)) ? place : NULL;
}

/* ---- names */

/* The name in UTF-8 and without a zero byte, with escapes for what it cannot have so. It lies in
 * *kept. */
static const char *text_of(PyObject *name, PyObject **kept) {
    Py_ssize_t bytes;
    const char *text = PyUnicode_AsUTF8AndSize(name, &bytes);
    if (text && strlen(text) == (size_t)bytes) {
        Py_INCREF(name);
        *kept = name;
        return text;
    }
    if (!text && !PyErr_ExceptionMatches(PyExc_UnicodeEncodeError))
        return NULL;
    PyErr_Clear();
    PyObject *escaped = PyUnicode_AsEncodedString(name, "utf-8", "backslashreplace");
    *kept = escaped ? PyObject_CallMethod(escaped, "replace", "y#y", "\0", (Py_ssize_t)1, "\\x00")
                    : NULL;
    Py_XDECREF(escaped);
    return *kept ? PyBytes_AsString(*kept) : NULL;
}

/* Names an object: as it is said, or by the place of the caller. `kept` has what the name lies in.
 */
static bool name_object(vs_object *object, PyObject *name, PyObject **kept) {
    vs_place place;
    if (name && name != Py_None) {
        object->name = text_of(name, kept);
        return object->name != NULL;
    }
    if (place_in_program(&place)) {
        object->name = place.file;
        object->line = place.line;
    }
    return true;
}

/* ---- who acts: a thread, a task of asyncio, a greenlet, a generator that is in a block, or an
 * Actor of the program */

typedef struct entry entry;

typedef struct actor {
    mortal life; /* of its task or greenlet */
    size_t references;
    const void *key; /* the task, greenlet or frame */
    vs_self *self;
    entry *innermost;  /* of its open blocks */
    PyObject *instead; /* the Actor that acts in its place */
    unsigned busy;     /* calls into the layer, in which the GIL may be given up */
    unsigned over;     /* blocks that ended meanwhile */
    bool whole;        /* its coroutines are suspended together */
    bool generator;    /* it is there as long as it has blocks */
} actor;

/* A block that is open. */
struct entry {
    actor *of;
    entry *outer;        /* of the same actor */
    struct block *block; /* whose label it has */
    entry *next;         /* of the same Block */
    const void *frame;   /* that began it: compared, never used */
    vs_block begun;
    bool over;
};

typedef struct person {
    PyObject_HEAD actor *actor;
} person;

static map actors, generators; /* by task or greenlet; by frame */
static uint64_t departed;      /* how many of the former have gone */
static uint64_t told, begun;   /* events and blocks, of all sessions */
static unsigned telling;       /* events that are being told, whose objects stay */
static PyObject *modules;      /* sys.modules */
static PyObject *running_loop, *current_task, *current_tasks, *current_greenlet;

static _Thread_local struct {
    actor *thread;   /* this thread itself */
    const void *key; /* the task or greenlet that acted last */
    actor *last;     /* it, as long as nobody has departed */
    uint64_t at;
} seen;

static actor *new_actor(void) {
    actor *a = PyMem_Calloc(1, sizeof *a);
    if (!a)
        return NULL;
    vs_switch(seen.thread ? seen.thread->self : NULL); /* whose session it begins in */
    a->references = 1;
    if ((a->self = vs_self_new()))
        return a;
    PyMem_Free(a);
    return NULL;
}

static void drop(actor *a) {
    if (--a->references)
        return;
    vs_self_free(a->self);
    Py_XDECREF(a->instead);
    PyMem_Free(a);
}

static void thread_gone(PyObject *capsule) {
    actor *a = PyCapsule_GetPointer(capsule, NULL);
    if (seen.thread == a)
        seen.thread = NULL;
    drop(a);
}

static actor *of_thread(void) {
    if (seen.thread)
        return seen.thread;
    actor *a = new_actor();
    PyObject *dict = a ? PyThreadState_GetDict() : NULL,
             *capsule = dict ? PyCapsule_New(a, NULL, thread_gone) : NULL;
    if (capsule && PyDict_SetItem(dict, str_actor, capsule) == 0)
        seen.thread = a;
    else if (!capsule && a)
        drop(a);
    PyErr_Clear();
    Py_XDECREF(capsule);
    return seen.thread;
}

static void actor_gone(mortal *m) {
    actor *a = (actor *)m;
    departed++;
    map_take(&actors, a->key);
    drop(a);
}

/* That of a task or greenlet, which is alive. */
static actor *of_object(PyObject *object, bool whole) {
    actor *a = map_get(&actors, object);
    if (a)
        return a;
    if (!of_thread() || !(a = new_actor()))
        return NULL;
    a->key = object;
    a->whole = whole;
    if (bury(&a->life, object, actor_gone) && map_put(&actors, object, a))
        return a;
    forget(&a->life);
    drop(a);
    return of_thread();
}

/* An attribute of a module that the program has imported; NULL where it has not, or not yet. */
static PyObject *imported(PyObject *module, const char *name) {
    PyObject *found = PyDict_GetItemWithError(modules, module),
             *attribute = found ? PyObject_GetAttrString(found, name) : NULL;
    PyErr_Clear();
    return attribute;
}

static bool find_asyncio(void) {
    PyObject *current = imported(str_asyncio_tasks, "current_task"),
             *running = current ? imported(str_asyncio_events, "_get_running_loop") : NULL,
             *theirs = running ? imported(str_asyncio_tasks, "_current_tasks") : NULL,
             *fast = theirs ? imported(str_asyncio, "_current_tasks") : NULL;
    if (running) {
        Py_INCREF(current);
        current_task = current;
        Py_INCREF(running);
        running_loop = running;
        if (theirs && theirs == fast && PyDict_Check(theirs)) {
            Py_INCREF(theirs);
            current_tasks = theirs; /* a look into it is quicker */
        }
    }
    Py_XDECREF(current);
    Py_XDECREF(running);
    Py_XDECREF(theirs);
    Py_XDECREF(fast);
    return running_loop != NULL;
}

/* The task that this thread runs, new; NULL where it runs none. */
static PyObject *task_here(void) {
    if (!running_loop && !find_asyncio())
        return NULL;
    PyObject *loop = PyObject_CallObject(running_loop, NULL), *task = NULL;
    if (loop && loop != Py_None && current_tasks) {
        task = PyDict_GetItemWithError(current_tasks, loop);
        Py_XINCREF(task);
    } else if (loop && loop != Py_None) {
        task = PyObject_CallFunctionObjArgs(current_task, loop, NULL);
    }
    Py_XDECREF(loop);
    if (task == Py_None)
        Py_CLEAR(task);
    PyErr_Clear();
    return task;
}

/* The greenlet that this thread runs, new; NULL where that is the thread's own. */
static PyObject *greenlet_here(void) {
    if (!current_greenlet && !(current_greenlet = imported(str_greenlet, "getcurrent")))
        return NULL;
    PyObject *greenlet = PyObject_CallObject(current_greenlet, NULL);
    if (greenlet && seen.key == greenlet && seen.at == departed)
        return greenlet;
    PyObject *parent = greenlet ? PyObject_GetAttrString(greenlet, "parent") : NULL;
    if (!parent || parent == Py_None)
        Py_CLEAR(greenlet);
    PyErr_Clear();
    Py_XDECREF(parent);
    return greenlet;
}

/* A thread, a task or a greenlet. */
static actor *of_runner(void) {
    PyObject *object = task_here();
    bool whole = object != NULL;
    if (!object && !(object = greenlet_here()))
        return of_thread();
    if (seen.key != object || seen.at != departed) {
        seen.last = of_object(object, whole);
        seen.key = object;
        seen.at = departed;
    }
    Py_DECREF(object); /* it runs */
    return seen.last;
}

static void stop_as(actor *a, const char *why) {
    vs_switch(a->self);
    vs_stop(why);
}

/* The innermost generator that is in a block and runs here, else its runner. */
static actor *of_generator(actor *runner) {
    PyFrameObject *frame = frame_here();
    actor *found = NULL;
    while (frame && !(found = map_get(&generators, frame)))
        go_back(&frame);
    Py_XDECREF(frame);
    if (found && runner->innermost)
        stop_as(runner, "a generator that is in a block was resumed in another block");
    return found ? found : runner;
}

static actor *acting(void) {
    actor *a = of_runner();
    if (a && a->instead)
        a = ((person *)a->instead)->actor;
    return a && generators.count ? of_generator(a) : a;
}

/* This thread acts as who runs here. */
static actor *act(void) {
    actor *a = acting();
    vs_switch(a ? a->self : NULL);
    return a;
}

/* ---- blocks */

typedef struct label {
    PyObject_HEAD vs_object object;
    PyObject *name; /* that the object's lies in */
} label;

typedef struct block {
    PyObject_HEAD label *label;
    entry *entries;    /* open ones, the last first */
    Py_ssize_t unseen; /* that began where nothing was recorded */
} block;

static PyTypeObject *label_type, *block_type, *person_type, *lock_type, *rlock_type;

/* The innermost block of the actor, which acts, ends. What its `with` statement finds at its own
 * end is an entry of nobody. */
static void end_innermost(actor *a) {
    entry *e = a->innermost;
    PyObject *its_block = (PyObject *)e->block;
    a->innermost = e->outer;
    e->of = NULL;
    vs_end_block(e->begun);
    drop(a);
    Py_DECREF(its_block);
}

/* Ends what was to end while the actor, which acts, was busy. */
static void catch_up(actor *a) {
    while (a->over && a->innermost && a->innermost->over) {
        entry *e = a->innermost;
        a->over--;
        a->references++;
        end_innermost(a);
        drop(a);
        PyMem_Free(e);
    }
}

static void tell(vs_object *object, vs_kind kind) {
    vs_place place;
    if (vs_idle())
        return;
    const vs_place *at = here(&place);
    actor *a = act();
    told++;
    telling++;
    if (a) {
        catch_up(a);
        a->references++;
        a->busy++;
    }
    vs_tell_at(object, kind, at);
    telling--;
    if (a) {
        a->busy--;
        drop(a);
    }
}

/* Whose a block is that begins here: the frame's own, where that is suspended apart from who runs
 * it, as a generator is. What a context manager begins is of the frame of its `with` statement. */
static actor *owner(actor *a) {
    PyFrameObject *frame = frame_here();
    actor *own = a;
    while (frame) {
        const code *c = code_of(frame);
        bool through = c && c->enters, suspends = c && c->suspends && !through;
        if (suspends) {
            PyFrameObject *outer = back(frame);
            const code *o = outer ? code_of(outer) : NULL;
            through = o && o->enters;
            Py_XDECREF(outer);
        }
        if (suspends && !through && !(c->coroutine && a->whole) &&
            !(own = map_get(&generators, frame)) && (own = new_actor())) {
            own->key = frame;
            own->generator = true;
            if (!map_put(&generators, frame, own)) {
                drop(own);
                own = NULL;
            }
        }
        if (!through)
            break;
        go_back(&frame);
    }
    Py_XDECREF(frame);
    return own;
}

static void leave(actor *a) {
    if (!a->generator || a->innermost)
        return;
    map_take(&generators, a->key);
    drop(a);
}

static void unlink_entry(entry *e) {
    entry **at = &e->block->entries;
    while (*at != e)
        at = &(*at)->next;
    *at = e->next;
}

/* Its `with` statement is left, in whatever thread. */
static void end_block(entry *e) {
    actor *of = e->of;
    unlink_entry(e);
    if (of && of->busy) {
        stop_as(of, "a block was ended by another thread than its own");
        e->over = true;
        of->over++;
        return;
    }
    if (of) {
        of->references++;
        vs_switch(of->self);
        if (of->innermost != e)
            vs_stop("a block ended in which another one was open");
        while (of->innermost != e)
            end_innermost(of);
        end_innermost(of);
        leave(of);
        drop(of);
    }
    PyMem_Free(e);
}

/* The entry that the `with` statement of the caller made: in this frame; else, where a function
 * does it for another, that of who acts. NULL where nothing was recorded at its begin. */
static entry *entry_here(const block *self) {
    const void *frame = PyEval_GetFrame();
    for (entry *e = self->entries; e; e = e->next)
        if (e->frame == frame)
            return e;
    const actor *a = self->entries ? acting() : NULL;
    for (entry *e = self->entries; e; e = e->next)
        if (e->of == a)
            return e;
    return self->unseen ? NULL : self->entries;
}

static void label_dealloc(label *self);
static void free_object(PyObject *self);

static PyObject *labels; /* by name, until they are too many */

/* The label of a name, new. Labels of one name are one to the layer; here they are, so that it need
 * not look. */
static label *label_of(PyObject *name) {
    label *known = (label *)PyDict_GetItemWithError(labels, name);
    if (known || PyErr_Occurred()) {
        Py_XINCREF(known);
        return known;
    }
    label *fresh = (label *)PyType_GenericNew(label_type, NULL, NULL);
    if (fresh && (fresh->object.name = text_of(name, &fresh->name))) {
        if (PyDict_Size(labels) >= MAX_LABELS)
            PyDict_Clear(labels);
        if (PyDict_SetItem(labels, name, (PyObject *)fresh) == 0)
            return fresh;
    }
    Py_XDECREF(fresh);
    return NULL;
}

static int block_init(block *self, PyObject *args, PyObject *keywords) {
    static char *keys[] = {"name", NULL};
    PyObject *name;
    if (!PyArg_ParseTupleAndKeywords(args, keywords, "U:atomic", keys, &name))
        return -1;
    if (self->label)
        return PyErr_SetString(PyExc_TypeError, "a block is made once"), -1;
    return (self->label = label_of(name)) ? 0 : -1;
}

static void block_dealloc(block *self) {
    for (entry *e = self->entries, *next; e; e = next) {
        next = e->next; /* of nobody: an open one keeps its Block */
        PyMem_Free(e);
    }
    Py_XDECREF(self->label);
    free_object((PyObject *)self);
}

static PyObject *block_enter(block *self, PyObject *unused) {
    (void)unused;
    if (vs_idle() || !self->label) {
        self->unseen++;
        Py_RETURN_NONE;
    }
    actor *a = acting(), *of = !a || a->innermost ? a : owner(a);
    entry *e = of ? PyMem_Malloc(sizeof *e) : NULL;
    if (!e) {
        self->unseen++;
        vs_stop("out of memory");
        Py_RETURN_NONE;
    }
    vs_switch(of->self);
    catch_up(of);
    begun++;
    of->references++;
    of->busy++;
    vs_block id = vs_begin_block(&self->label->object);
    of->busy--;
    *e = (entry){.of = of,
                 .outer = of->innermost,
                 .block = self,
                 .next = self->entries,
                 .frame = PyEval_GetFrame(),
                 .begun = id};
    of->innermost = self->entries = e;
    Py_INCREF(self);
    Py_RETURN_NONE;
}

static PyObject *block_exit(block *self, PyObject *const *failure, Py_ssize_t count) {
    (void)failure, (void)count;
    entry *e = entry_here(self);
    if (e)
        end_block(e);
    else if (self->unseen)
        self->unseen--;
    Py_RETURN_NONE;
}

/* ---- types: a type object for each, made at import */

static void free_object(PyObject *self) {
    PyTypeObject *type = Py_TYPE(self);
    freefunc freed = (freefunc)PyType_GetSlot(type, Py_tp_free);
    freed(self);
    Py_DECREF(type);
}

static void label_dealloc(label *self) {
    Py_CLEAR(self->name);
    free_object((PyObject *)self);
}

static PyType_Slot label_slots[] = {{Py_tp_dealloc, label_dealloc}, {0, NULL}};
static PyType_Spec label_spec = {"velodrome._session.Label", sizeof(label), 0, Py_TPFLAGS_DEFAULT,
                                 label_slots};

static PyMethodDef block_methods[] = {
    {"__enter__", (PyCFunction)block_enter, METH_NOARGS, NULL},
    {"__exit__", (PyCFunction)(void (*)(void))block_exit, METH_FASTCALL, NULL},
    {NULL, NULL, 0, NULL}};

static PyType_Slot block_slots[] = {
    {Py_tp_doc, "An atomic block of who runs it: a thread, a task, a greenlet or a generator."},
    {Py_tp_init, block_init},
    {Py_tp_new, PyType_GenericNew},
    {Py_tp_dealloc, block_dealloc},
    {Py_tp_methods, block_methods},
    {0, NULL}};

static PyType_Spec block_spec = {"velodrome._session.Block", sizeof(block), 0,
                                 Py_TPFLAGS_DEFAULT | Py_TPFLAGS_BASETYPE, block_slots};

/* ---- Actor */

static PyObject *person_new(PyTypeObject *type, PyObject *args, PyObject *keywords) {
    static char *none[] = {NULL};
    if (!PyArg_ParseTupleAndKeywords(args, keywords, ":Actor", none))
        return NULL;
    person *fresh = (person *)PyType_GenericNew(type, NULL, NULL);
    if (fresh && of_thread() && (fresh->actor = new_actor())) {
        fresh->actor->whole = true;
        return (PyObject *)fresh;
    }
    Py_XDECREF(fresh);
    return PyErr_Occurred() ? NULL : PyErr_NoMemory();
}

static void person_dealloc(person *self) {
    if (self->actor)
        drop(self->actor);
    free_object((PyObject *)self);
}

static PyType_Slot person_slots[] = {
    {Py_tp_doc, "Actor()\n--\n\nWho acts, where that is no thread, task, greenlet or generator. It "
                "has blocks of its own, and one thread acts as it at a time."},
    {Py_tp_new, person_new},
    {Py_tp_dealloc, person_dealloc},
    {0, NULL}};

static PyType_Spec person_spec = {"velodrome.Actor", sizeof(person), 0, Py_TPFLAGS_DEFAULT,
                                  person_slots};

/* The thread, task or greenlet that calls acts as the Actor from here on, or as itself for None.
 * Returns as whom it acted. */
static PyObject *py_switch(PyObject *module, PyObject *next) {
    (void)module;
    if (next != Py_None && Py_TYPE(next) != person_type)
        return PyErr_Format(PyExc_TypeError, "switch is to an Actor or None, not to %R", next);
    actor *a = of_runner();
    if (!a)
        return PyErr_NoMemory();
    PyObject *before = a->instead;
    a->instead = NULL;
    if (next != Py_None) {
        Py_INCREF(next);
        a->instead = next;
    }
    if (before)
        return before;
    Py_RETURN_NONE;
}

/* ---- Var */

typedef struct var {
    PyObject_HEAD vs_object object;
    PyObject *name, *value, *references;
} var;

static int var_init(var *self, PyObject *args, PyObject *keywords) {
    static char *keys[] = {"value", "name", NULL};
    PyObject *value = Py_None, *name = NULL;
    if (!PyArg_ParseTupleAndKeywords(args, keywords, "|OO:Var", keys, &value, &name))
        return -1;
    if (self->value)
        return PyErr_SetString(PyExc_TypeError, "a Var is made once"), -1;
    if (!name_object(&self->object, name, &self->name))
        return -1;
    Py_INCREF(value);
    self->value = value;
    return 0;
}

static int var_traverse(var *self, visitproc visit, void *arg) {
    Py_VISIT(Py_TYPE(self));
    Py_VISIT(self->value);
    return 0;
}

static int var_clear(var *self) {
    Py_CLEAR(self->value);
    return 0;
}

static void var_dealloc(var *self) {
    PyObject_GC_UnTrack(self);
    if (self->references)
        PyObject_ClearWeakRefs((PyObject *)self);
    Py_CLEAR(self->value);
    Py_CLEAR(self->name);
    free_object((PyObject *)self);
}

static PyObject *var_get(var *self, PyObject *unused) {
    (void)unused;
    tell(&self->object, VS_READ);
    PyObject *value = self->value ? self->value : Py_None;
    Py_INCREF(value);
    return value;
}

static PyObject *var_set(var *self, PyObject *value) {
    Py_INCREF(value);
    tell(&self->object, VS_WRITE);
    PyObject *old = self->value;
    self->value = value;
    Py_XDECREF(old); /* code of the program may run here */
    Py_RETURN_NONE;
}

static PyObject *var_repr(var *self) {
    return PyUnicode_FromFormat("Var(%R)", self->value ? self->value : Py_None);
}

static PyMethodDef var_methods[] = {
    {"get", (PyCFunction)var_get, METH_NOARGS, "get($self)\n--\n\nReads it."},
    {"set", (PyCFunction)var_set, METH_O, "set($self, value, /)\n--\n\nWrites it."},
    {"__class_getitem__", Py_GenericAlias, METH_O | METH_CLASS, NULL},
    {NULL, NULL, 0, NULL}};

static PyMemberDef var_members[] = {
    {"__weaklistoffset__", T_PYSSIZET, offsetof(var, references), READONLY, NULL},
    {NULL, 0, 0, 0, NULL}};

static PyType_Slot var_slots[] = {
    {Py_tp_doc,
     "Var(value=None, name=None)\n--\n\nA shared variable whose reads and writes are events."},
    {Py_tp_init, var_init},
    {Py_tp_new, PyType_GenericNew},
    {Py_tp_dealloc, var_dealloc},
    {Py_tp_traverse, var_traverse},
    {Py_tp_clear, var_clear},
    {Py_tp_repr, var_repr},
    {Py_tp_methods, var_methods},
    {Py_tp_members, var_members},
    {0, NULL}};

static PyType_Spec var_spec = {"velodrome.Var", sizeof(var), 0,
                               Py_TPFLAGS_DEFAULT | Py_TPFLAGS_BASETYPE | Py_TPFLAGS_HAVE_GC,
                               var_slots};

/* ---- the variables of instances: a table beside the program, whose instances stay as they are. A
 * variable is a name in a __dict__, which instances may share. */

typedef struct variable {
    vs_object object;
    PyObject *name, *title; /* the key in the __dict__; what it is called */
    struct variable *next;
} variable;

typedef struct holder {
    mortal life;        /* of the instance that was met first */
    PyObject *dict;     /* kept where others have it too, else borrowed from the instance */
    PyObject *instance; /* compared, never used */
    variable *first;
    bool kept;
    struct holder *next; /* of those that are kept */
} holder;

static map holders; /* by __dict__ */
static holder *kept_holders;

static void free_holder(holder *h) {
    forget(&h->life);
    for (variable *v = h->first, *next; v; v = next) {
        next = v->next;
        Py_XDECREF(v->name);
        Py_XDECREF(v->title);
        PyMem_Free(v);
    }
    PyMem_Free(h);
}

static void instance_gone(mortal *m) {
    holder *h = (holder *)m;
    h->instance = NULL;
    if (h->kept)
        return;
    map_take(&holders, h->dict);
    free_holder(h);
}

/* Others than its instance have this __dict__, so it is not known when it goes. */
static void keep_dict(holder *h) {
    if (h->kept)
        return;
    Py_INCREF(h->dict);
    h->kept = true;
    h->next = kept_holders;
    kept_holders = h;
}

/* At the end of the last session. Code of the program may run here. */
static void release_dicts(void) {
    while (kept_holders && !telling) {
        holder *h = kept_holders;
        PyObject *dict = h->dict;
        kept_holders = h->next;
        map_take(&holders, dict);
        free_holder(h);
        Py_DECREF(dict);
    }
}

static holder *new_holder(PyObject *instance, PyObject *dict) {
    holder *h = PyMem_Calloc(1, sizeof *h);
    if (!h)
        return NULL;
    h->dict = dict;
    h->instance = instance;
    bool shared = Py_REFCNT(dict) > 2; /* the instance has it, and the caller */
    if (!map_put(&holders, dict, h)) {
        PyMem_Free(h);
        return NULL;
    }
    if (!bury(&h->life, instance, instance_gone) || shared)
        keep_dict(h);
    return h;
}

/* Whether the instance that was met first still has this __dict__: else another was made where that
 * one was. */
static bool is_of_its_instance(const holder *h) {
    PyObject *instance = h->life.reference ? PyWeakref_GetObject(h->life.reference) : NULL;
    PyObject *dict = instance && instance != Py_None ? PyObject_GetAttr(instance, str_dict) : NULL;
    bool same = dict == h->dict;
    PyErr_Clear();
    Py_XDECREF(dict);
    return same;
}

static holder *holder_of(PyObject *instance, PyObject *dict) {
    holder *h = map_get(&holders, dict);
    if (!h || h->instance == instance || h->kept)
        return h ? h : new_holder(instance, dict);
    if (is_of_its_instance(h)) {
        keep_dict(h);
        return h;
    }
    map_take(&holders, dict);
    free_holder(h);
    return new_holder(instance, dict);
}

/* ---- field */

typedef struct field {
    PyObject_HEAD PyObject *initial, *name, *title; /* of an instance that has none yet; in the
                                                       __dict__; for people */
    PyObject *text;                                 /* the title in UTF-8 lies in it */
    const char *in_utf8;
} field;

static int field_init(field *self, PyObject *args, PyObject *keywords) {
    static char *keys[] = {"default", NULL};
    PyObject *initial = NULL;
    if (!PyArg_ParseTupleAndKeywords(args, keywords, "|O:field", keys, &initial))
        return -1;
    Py_XINCREF(initial);
    PyObject *old = self->initial;
    self->initial = initial;
    Py_XDECREF(old);
    return 0;
}

static int field_traverse(field *self, visitproc visit, void *arg) {
    Py_VISIT(Py_TYPE(self));
    Py_VISIT(self->initial);
    return 0;
}

static int field_clear(field *self) {
    Py_CLEAR(self->initial);
    return 0;
}

static void field_dealloc(field *self) {
    PyObject_GC_UnTrack(self);
    Py_CLEAR(self->initial);
    Py_CLEAR(self->name);
    Py_CLEAR(self->title);
    Py_CLEAR(self->text);
    free_object((PyObject *)self);
}

static PyObject *field_set_name(field *self, PyObject *args) {
    PyObject *owner_, *name;
    if (!PyArg_ParseTuple(args, "OU:__set_name__", &owner_, &name))
        return NULL;
    PyObject *qualified = PyObject_GetAttrString(owner_, "__qualname__");
    if (!qualified)
        return NULL;
    Py_CLEAR(self->name);
    Py_CLEAR(self->title);
    Py_CLEAR(self->text);
    Py_INCREF(name);
    self->name = name;
    PyUnicode_InternInPlace(&self->name);
    self->title = PyUnicode_FromFormat("%S.%U", qualified, name);
    Py_DECREF(qualified);
    self->in_utf8 = self->title ? text_of(self->title, &self->text) : NULL;
    if (!self->in_utf8)
        return NULL;
    Py_RETURN_NONE;
}

/* The __dict__ of an instance, new. */
static PyObject *dict_of(field *self, PyObject *instance) {
    if (!self->title)
        return PyErr_SetString(PyExc_TypeError, "a field stands in the body of a class"), NULL;
    PyObject *dict = PyObject_GetAttr(instance, str_dict);
    if (!dict || PyDict_Check(dict))
        return dict;
    Py_DECREF(dict);
    return PyErr_SetString(PyExc_TypeError, "a field is for instances with a __dict__"), NULL;
}

/* The variable that this field of the instance is; NULL where there is no memory. */
static variable *variable_of(field *self, PyObject *instance, PyObject *dict) {
    holder *h = holder_of(instance, dict);
    if (!h)
        return NULL;
    for (variable *v = h->first; v; v = v->next)
        if (v->name == self->name)
            return v;
    variable *fresh = PyMem_Calloc(1, sizeof *fresh);
    if (!fresh)
        return NULL;
    Py_INCREF(self->name);
    fresh->name = self->name;
    Py_INCREF(self->text);
    fresh->title = self->text;
    fresh->object.name = self->in_utf8;
    fresh->next = h->first;
    return h->first = fresh;
}

/* Tells an access of the instance's field. */
static void tell_field(field *self, PyObject *instance, PyObject *dict, vs_kind kind) {
    if (vs_idle())
        return;
    variable *v = variable_of(self, instance, dict);
    if (v)
        tell(&v->object, kind);
    else
        act(), vs_stop("out of memory");
}

static PyObject *field_missing(field *self) {
    return PyErr_Format(PyExc_AttributeError, "%U has no value yet", self->title), NULL;
}

static PyObject *field_get(field *self, PyObject *instance, PyObject *owner_) {
    (void)owner_;
    PyObject *dict = instance && instance != Py_None ? dict_of(self, instance) : NULL,
             *value = NULL;
    if (!dict && PyErr_Occurred())
        return NULL;
    if (dict) {
        tell_field(self, instance, dict, VS_READ);
        value = PyDict_GetItemWithError(dict, self->name);
    }
    if (!value && !PyErr_Occurred())
        value = self->initial;
    Py_XINCREF(value);
    Py_XDECREF(dict);
    return value || PyErr_Occurred() ? value : field_missing(self);
}

static int field_set(field *self, PyObject *instance, PyObject *value) {
    PyObject *dict = dict_of(self, instance);
    if (!dict)
        return -1;
    int failed = -1;
    tell_field(self, instance, dict, VS_WRITE);
    PyObject *old = PyDict_GetItemWithError(dict, self->name);
    Py_XINCREF(old); /* it goes at the end: code of the program may run then */
    if (value)
        failed = PyErr_Occurred() ? -1 : PyDict_SetItem(dict, self->name, value);
    else if (old)
        failed = PyDict_DelItem(dict, self->name);
    else if (!PyErr_Occurred())
        field_missing(self);
    Py_DECREF(dict);
    Py_XDECREF(old);
    return failed;
}

static PyMethodDef field_methods[] = {
    {"__set_name__", (PyCFunction)field_set_name, METH_VARARGS, NULL}, {NULL, NULL, 0, NULL}};

static PyType_Slot field_slots[] = {
    {Py_tp_doc, "field(default=...)\n--\n\nAn attribute whose reads and writes are events, a "
                "variable of its own in each instance."},
    {Py_tp_init, field_init},
    {Py_tp_new, PyType_GenericNew},
    {Py_tp_dealloc, field_dealloc},
    {Py_tp_traverse, field_traverse},
    {Py_tp_clear, field_clear},
    {Py_tp_descr_get, field_get},
    {Py_tp_descr_set, field_set},
    {Py_tp_methods, field_methods},
    {0, NULL}};

static PyType_Spec field_spec = {"velodrome.field", sizeof(field), 0,
                                 Py_TPFLAGS_DEFAULT | Py_TPFLAGS_HAVE_GC, field_slots};

/* ---- Lock and RLock: threading's own, told. An acquire and a release are of threading's, whatever
 * becomes of the telling */

typedef struct lock {
    PyObject_HEAD vs_object object;
    PyObject *name, *inner, *acquire, *release, *is_owned, *references;
    Py_ssize_t depth; /* how often it is held; 0 or 1 for a Lock */
} lock;

static PyObject *threading_module;
static PyObject *makers[2]; /* of Lock and of RLock, of threading or of who patched it before us */
static bool library_locks;  /* those that the standard library makes for itself are told too */

static bool is_reentrant(PyTypeObject *type) {
    return type != lock_type && PyType_IsSubtype(type, rlock_type);
}

/* What threading makes locks by now, unless that is ours. */
static PyObject *maker(bool reentrant) {
    PyObject *now = PyObject_GetAttrString(threading_module, reentrant ? "RLock" : "Lock");
    bool ours = now == (PyObject *)(reentrant ? rlock_type : lock_type);
    if (now && !ours) {
        PyObject *old = makers[reentrant];
        makers[reentrant] = now;
        Py_XDECREF(old);
    } else {
        PyErr_Clear();
        Py_XDECREF(now);
    }
    return makers[reentrant];
}

/* Whether the standard library makes a lock here, and not for a Condition of the program. */
static bool is_made_by_library(void) {
    PyFrameObject *frame = frame_here();
    const code *c = frame ? code_of(frame) : NULL;
    if (c && c->address == condition)
        go_back(&frame);
    c = frame ? code_of(frame) : NULL;
    bool is = c && c->library;
    Py_XDECREF(frame);
    return is;
}

static PyObject *lock_new(PyTypeObject *type, PyObject *args, PyObject *keywords) {
    if ((type == lock_type || type == rlock_type) && !library_locks && is_made_by_library())
        return PyObject_Call(maker(is_reentrant(type)), args, keywords);
    return PyType_GenericNew(type, args, keywords);
}

static int lock_init(lock *self, PyObject *args, PyObject *keywords) {
    static char *keys[] = {"name", NULL};
    PyObject *name = NULL;
    bool reentrant = is_reentrant(Py_TYPE(self));
    if (!PyArg_ParseTupleAndKeywords(args, keywords, "|O:Lock", keys, &name))
        return -1;
    if (self->inner)
        return PyErr_SetString(PyExc_TypeError, "a lock is made once"), -1;
    if (!name_object(&self->object, name, &self->name))
        return -1;
    self->inner = PyObject_CallObject(maker(reentrant), NULL);
    self->acquire = self->inner ? PyObject_GetAttrString(self->inner, "acquire") : NULL;
    self->release = self->acquire ? PyObject_GetAttrString(self->inner, "release") : NULL;
    if (!self->release)
        return -1;
    self->is_owned = reentrant ? PyObject_GetAttrString(self->inner, "_is_owned") : NULL;
    PyErr_Clear();
    return 0;
}

static void lock_dealloc(lock *self) {
    if (self->references)
        PyObject_ClearWeakRefs((PyObject *)self);
    Py_CLEAR(self->acquire);
    Py_CLEAR(self->release);
    Py_CLEAR(self->is_owned);
    Py_CLEAR(self->inner);
    Py_CLEAR(self->name);
    free_object((PyObject *)self);
}

static bool is_made(lock *self) {
    if (self->release)
        return true;
    PyErr_SetString(PyExc_TypeError, "Lock.__init__ was not called");
    return false;
}

/* Whether who calls holds it, and may release it: of a Lock anybody may. */
static bool is_held(lock *self) {
    if (!self->depth || !self->is_owned)
        return self->depth > 0;
    PyObject *said = PyObject_CallObject(self->is_owned, NULL);
    bool is = said != Py_False;
    PyErr_Clear();
    Py_XDECREF(said);
    return is;
}

/* It was taken: the outermost hold is told. */
static void lock_taken(lock *self, Py_ssize_t times) {
    self->depth += times;
    if (self->depth == times)
        tell(&self->object, VS_ACQUIRE);
}

/* It will be released, unless that is refused. */
static void lock_given(lock *self, Py_ssize_t times) {
    if (!is_held(self))
        return;
    if (self->depth == times)
        tell(&self->object, VS_RELEASE);
    self->depth -= times;
}

static PyObject *lock_acquired(lock *self, PyObject *result) {
    if (result == Py_True)
        lock_taken(self, 1);
    return result;
}

static PyObject *lock_acquire(lock *self, PyObject *args, PyObject *keywords) {
    return is_made(self) ? lock_acquired(self, PyObject_Call(self->acquire, args, keywords)) : NULL;
}

static PyObject *lock_enter(lock *self, PyObject *unused) {
    (void)unused;
    return is_made(self) ? lock_acquired(self, PyObject_CallObject(self->acquire, NULL)) : NULL;
}

static PyObject *lock_release(lock *self, PyObject *unused) {
    (void)unused;
    if (!is_made(self))
        return NULL;
    lock_given(self, 1);
    return PyObject_CallObject(self->release, NULL);
}

static PyObject *lock_exit(lock *self, PyObject *const *failure, Py_ssize_t count) {
    (void)failure, (void)count;
    return lock_release(self, NULL);
}

static PyObject *lock_locked(lock *self, PyObject *unused) {
    (void)unused;
    return PyBool_FromLong(self->depth > 0);
}

/* In the child of a fork. */
static PyObject *lock_at_fork(lock *self, PyObject *unused) {
    (void)unused;
    self->depth = 0;
    return is_made(self) ? PyObject_CallMethod(self->inner, "_at_fork_reinit", NULL) : NULL;
}

/* What threading.Condition asks of an RLock. */
static PyObject *rlock_is_owned(lock *self, PyObject *unused) {
    (void)unused;
    return PyBool_FromLong(is_held(self));
}

static PyObject *rlock_release_save(lock *self, PyObject *unused) {
    (void)unused;
    if (!is_made(self))
        return NULL;
    Py_ssize_t depth = self->depth;
    lock_given(self, depth);
    PyObject *state = PyObject_CallMethod(self->inner, "_release_save", NULL);
    return state ? Py_BuildValue("(nN)", depth, state) : NULL;
}

static PyObject *rlock_acquire_restore(lock *self, PyObject *args) {
    Py_ssize_t depth;
    PyObject *state;
    if (!is_made(self) || !PyArg_ParseTuple(args, "(nO):_acquire_restore", &depth, &state))
        return NULL;
    PyObject *result = PyObject_CallMethod(self->inner, "_acquire_restore", "(O)", state);
    if (result)
        lock_taken(self, depth);
    return result;
}

static PyObject *lock_repr(lock *self) {
    const char *what = is_reentrant(Py_TYPE(self)) ? "velodrome.RLock of" : "velodrome.Lock of";
    return PyUnicode_FromFormat("<%s %R>", what, self->inner ? self->inner : Py_None);
}

#define LOCK_METHODS                                                                               \
    {"acquire", (PyCFunction)(void (*)(void))lock_acquire, METH_VARARGS | METH_KEYWORDS,           \
     "acquire($self, blocking=True, timeout=-1)\n--\n\nAs threading's."},                          \
        {"release", (PyCFunction)lock_release, METH_NOARGS,                                        \
         "release($self)\n--\n\nAs threading's."},                                                 \
        {"locked", (PyCFunction)lock_locked, METH_NOARGS,                                          \
         "locked($self)\n--\n\nWhether it is held."},                                              \
        {"__enter__", (PyCFunction)lock_enter, METH_NOARGS, NULL},                                 \
        {"__exit__", (PyCFunction)(void (*)(void))lock_exit, METH_FASTCALL, NULL}, {               \
        "_at_fork_reinit", (PyCFunction)lock_at_fork, METH_NOARGS, NULL                            \
    }

static PyMethodDef lock_methods[] = {LOCK_METHODS, {NULL, NULL, 0, NULL}};

static PyMethodDef rlock_methods[] = {
    LOCK_METHODS,
    {"_is_owned", (PyCFunction)rlock_is_owned, METH_NOARGS, NULL},
    {"_release_save", (PyCFunction)rlock_release_save, METH_NOARGS, NULL},
    {"_acquire_restore", (PyCFunction)rlock_acquire_restore, METH_VARARGS, NULL},
    {NULL, NULL, 0, NULL}};

static PyMemberDef lock_members[] = {
    {"__weaklistoffset__", T_PYSSIZET, offsetof(lock, references), READONLY, NULL},
    {NULL, 0, 0, 0, NULL}};

#define LOCK_SLOTS(text, methods)                                                                  \
    {                                                                                              \
        {Py_tp_doc, text}, {Py_tp_init, lock_init}, {Py_tp_new, lock_new},                         \
            {Py_tp_dealloc, lock_dealloc}, {Py_tp_repr, lock_repr}, {Py_tp_methods, methods},      \
            {Py_tp_members, lock_members}, {                                                       \
            0, NULL                                                                                \
        }                                                                                          \
    }

static PyType_Slot lock_slots[] =
    LOCK_SLOTS("Lock(name=None)\n--\n\nthreading.Lock, told.", lock_methods);
static PyType_Slot rlock_slots[] = LOCK_SLOTS(
    "RLock(name=None)\n--\n\nthreading.RLock, of which the outermost hold is told.", rlock_methods);
static PyType_Spec lock_spec = {"velodrome.Lock", sizeof(lock), 0,
                                Py_TPFLAGS_DEFAULT | Py_TPFLAGS_BASETYPE, lock_slots};
static PyType_Spec rlock_spec = {"velodrome.RLock", sizeof(lock), 0,
                                 Py_TPFLAGS_DEFAULT | Py_TPFLAGS_BASETYPE, rlock_slots};

/* Whether the locks of the standard library are told, from here on. Returns whether they were. What
 * makes locks now, such as gevent's, makes those in ours. */
static PyObject *py_tell_library(PyObject *module, PyObject *tells) {
    (void)module;
    bool before = library_locks;
    library_locks = tells == Py_True;
    maker(false);
    maker(true);
    return PyBool_FromLong(before);
}

/* ---- sessions */

static void pause_without_gil(uint32_t nanoseconds) {
    struct timespec time = {0, (long)nanoseconds};
    Py_BEGIN_ALLOW_THREADS nanosleep(&time, NULL);
    Py_END_ALLOW_THREADS
}

static bool in_range(const char *name, unsigned long long value, unsigned long long most) {
    if (value <= most)
        return true;
    PyErr_Format(PyExc_ValueError, "%s is %llu, and may be %llu at most", name, value, most);
    return false;
}

/* A number of at most so much. */
static bool number_of(PyObject *given, const char *name, unsigned long long most,
                      unsigned long long *value) {
    *value = PyLong_AsUnsignedLongLong(given);
    if (!PyErr_Occurred())
        return in_range(name, *value, most);
    if (PyErr_ExceptionMatches(PyExc_OverflowError))
        PyErr_Format(PyExc_ValueError, "%s is out of range", name);
    return false;
}

static PyObject *py_open(PyObject *module, PyObject *args) {
    (void)module;
    PyObject *events, *noise, *seed;
    int places;
    vs_options options = {0};
    unsigned long long e, n, s;
    if (!PyArg_ParseTuple(args, "OOOp", &events, &noise, &seed, &places))
        return NULL;
    if (!number_of(events, "events", 16777216, &e) || !number_of(noise, "noise", UINT32_MAX, &n))
        return NULL;
    if (!number_of(seed, "seed", UINT64_MAX, &s))
        return NULL;
    options.events = (uint32_t)e;
    options.noise = (uint32_t)n;
    options.seed = s;
    options.wait = pause_without_gil;
    with_places = places;
    act();
    return PyLong_FromUnsignedLongLong(vs_open(&options, true));
}

/* (verdict, report, whether its log was saved). With a path the log is saved where there was an
 * alarm, or with `always`. Nobody acts between its looks, as this has the GIL. */
static PyObject *py_close(PyObject *module, PyObject *args) {
    (void)module;
    unsigned long long session;
    PyObject *path;
    int always;
    char *report = NULL;
    if (!PyArg_ParseTuple(args, "KOp", &session, &path, &always))
        return NULL;
    PyObject *bytes = NULL;
    if (path != Py_None && !PyUnicode_FSConverter(path, &bytes))
        return NULL;
    act();
    vs_verdict so_far = vs_so_far(session);
    bool wanted = so_far == VS_ALARM || (so_far == VS_INCOMPLETE && always),
         saved = bytes && wanted && vs_save(session, PyBytes_AsString(bytes));
    vs_verdict verdict = vs_close(session, &report);
    const char *words = report ? report : "";
    PyObject *text = PyUnicode_DecodeUTF8(words, (Py_ssize_t)strlen(words), "replace");
    vs_free(report);
    Py_XDECREF(bytes);
    if (vs_idle())
        release_dicts();
    return text ? Py_BuildValue("iNO", (int)verdict, text, saved ? Py_True : Py_False) : NULL;
}

/* Leaves out the variables (0), locks (1) or blocks (2) of a name. */
static PyObject *py_ignore(PyObject *module, PyObject *args) {
    (void)module;
    unsigned long long session;
    int kind;
    PyObject *name, *kept = NULL;
    if (!PyArg_ParseTuple(args, "KiU", &session, &kind, &name))
        return NULL;
    const char *text = text_of(name, &kept);
    if (!text)
        return NULL;
    bool done = vs_ignore(session, (vs_named)kind, text);
    Py_DECREF(kept);
    return done ? PyBool_FromLong(true) : PyErr_NoMemory();
}

static PyObject *py_so_far(PyObject *module, PyObject *args) {
    (void)module;
    unsigned long long session;
    if (!PyArg_ParseTuple(args, "K", &session))
        return NULL;
    act();
    return PyLong_FromLong(vs_so_far(session));
}

static PyObject *py_save(PyObject *module, PyObject *args) {
    (void)module;
    unsigned long long session;
    PyObject *path;
    if (!PyArg_ParseTuple(args, "KO&", &session, PyUnicode_FSConverter, &path))
        return NULL;
    act();
    bool saved = vs_save(session, PyBytes_AsString(path));
    Py_DECREF(path);
    return PyBool_FromLong(saved);
}

/* How many events were told, and how many blocks began. */
static PyObject *py_counts(PyObject *module, PyObject *unused) {
    (void)module, (void)unused;
    return Py_BuildValue("(KK)", (unsigned long long)told, (unsigned long long)begun);
}

/* ---- threads */

static PyObject *py_fork(PyObject *module, PyObject *unused) {
    (void)module, (void)unused;
    vs_place place;
    const vs_place *at = vs_idle() ? NULL : here(&place);
    act();
    vs_child child = vs_fork_at(at);
    return Py_BuildValue("(KK)", (unsigned long long)child.session, (unsigned long long)child.who);
}

static bool child_of(PyObject *args, vs_child *child) {
    unsigned long long session, who;
    if (!PyArg_ParseTuple(args, "KK", &session, &who))
        return false;
    *child = (vs_child){session, who};
    return true;
}

static PyObject *py_born(PyObject *module, PyObject *args) {
    (void)module;
    vs_child child;
    if (!child_of(args, &child))
        return NULL;
    act();
    vs_born(child);
    Py_RETURN_NONE;
}

static PyObject *py_exit(PyObject *module, PyObject *args) {
    (void)module;
    vs_child child;
    if (!child_of(args, &child))
        return NULL;
    act();
    vs_exit(child);
    Py_RETURN_NONE;
}

static PyObject *py_join(PyObject *module, PyObject *args) {
    (void)module;
    vs_child child;
    vs_place place;
    if (!child_of(args, &child))
        return NULL;
    const vs_place *at = vs_idle() ? NULL : here(&place);
    act();
    vs_join_at(child, at);
    Py_RETURN_NONE;
}

/* ---- the module */

/* What the package knows of Python: a function that says whether a file is of the library, and the
 * code by which a Condition makes its lock. */
static PyObject *py_know(PyObject *module, PyObject *args) {
    PyObject *library, *init;
    (void)module;
    if (!PyArg_ParseTuple(args, "OO", &library, &init))
        return NULL;
    if (!is_library) {      /* that of another interpreter would go with it */
        Py_INCREF(library); /* for good */
        Py_INCREF(init);
        is_library = library;
        condition = init;
    }
    Py_RETURN_NONE;
}

static PyMethodDef methods[] = {{"open", py_open, METH_VARARGS, NULL},
                                {"close", py_close, METH_VARARGS, NULL},
                                {"ignore", py_ignore, METH_VARARGS, NULL},
                                {"so_far", py_so_far, METH_VARARGS, NULL},
                                {"save", py_save, METH_VARARGS, NULL},
                                {"counts", py_counts, METH_NOARGS, NULL},
                                {"fork", py_fork, METH_NOARGS, NULL},
                                {"born", py_born, METH_VARARGS, NULL},
                                {"exit", py_exit, METH_VARARGS, NULL},
                                {"join", py_join, METH_VARARGS, NULL},
                                {"switch", py_switch, METH_O, NULL},
                                {"tell_library", py_tell_library, METH_O, NULL},
                                {"know", py_know, METH_VARARGS, NULL},
                                {"gone", py_gone, METH_O, NULL},
                                {NULL, NULL, 0, NULL}};

static struct PyModuleDef definition = {
    PyModuleDef_HEAD_INIT, "velodrome._session", NULL, -1, methods, NULL, NULL, NULL, NULL};

static bool add_type(PyObject *module, const char *name, PyType_Spec *spec, PyTypeObject **type) {
    PyObject *made = PyType_FromSpec(spec);
    if (!made)
        return false;
    if (type) {
        Py_INCREF(made); /* ours, for good */
        *type = (PyTypeObject *)made;
    }
    if (PyModule_AddObject(module, name, made) == 0)
        return true;
    Py_DECREF(made);
    return false;
}

static bool find_threading(void) {
    threading_module = PyImport_ImportModule("threading");
    return threading_module && maker(false) && maker(true);
}

static bool make_string(PyObject **string, const char *text) {
    return (*string = PyUnicode_InternFromString(text)) != NULL;
}

static bool make_objects(PyObject *module) {
    modules = PyImport_GetModuleDict();
    files = PyDict_New();
    labels = PyDict_New();
    on_gone = PyObject_GetAttrString(module, "gone");
    return modules && files && labels && on_gone && make_string(&str_co_filename, "co_filename") &&
           make_string(&str_co_flags, "co_flags") && make_string(&str_co_name, "co_name") &&
           make_string(&str_f_back, "f_back") && make_string(&str_dict, "__dict__") &&
           make_string(&str_actor, "velodrome.actor") && make_string(&str_asyncio, "_asyncio") &&
           make_string(&str_asyncio_tasks, "asyncio.tasks") &&
           make_string(&str_asyncio_events, "asyncio.events") &&
           make_string(&str_greenlet, "greenlet");
}

/* What the library is built for; the wheel's tag cannot say it. */
static bool has_processor(void) {
#ifdef __x86_64__
    if (__builtin_cpu_supports("sse4.2"))
        return true;
    PyErr_SetString(PyExc_ImportError, "velodrome is for processors with SSE4.2");
    return false;
#else
    return true;
#endif
}

PyMODINIT_FUNC PyInit__session(void) {
    if (!has_processor())
        return NULL;
    PyObject *module = PyModule_Create(&definition);
    if (module && make_objects(module) && add_type(module, "Var", &var_spec, NULL) &&
        add_type(module, "field", &field_spec, NULL) &&
        add_type(module, "Label", &label_spec, &label_type) &&
        add_type(module, "Block", &block_spec, &block_type) &&
        add_type(module, "Actor", &person_spec, &person_type) &&
        add_type(module, "Lock", &lock_spec, &lock_type) &&
        add_type(module, "RLock", &rlock_spec, &rlock_type) && find_threading())
        return module;
    Py_XDECREF(module);
    return NULL;
}
