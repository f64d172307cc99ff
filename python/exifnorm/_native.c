/* exifnorm._native: the library's calls for blocks and JPEGs, which take less time than by ctypes, and the function `normal` of the
 * package.
 *
 * The module isn't linked with the library, which _library.py finds and loads: `functions` takes the addresses of its functions. Only the
 * limited API of CPython 3.9 is used, so one file serves this version and all later ones.
 */
#define Py_LIMITED_API 0x03090000
#define PY_SSIZE_T_CLEAN
#include <Python.h>

#include <stddef.h>
#include <stdint.h>
#include <stdlib.h>
#include <string.h>

#include "exifnorm.h"

#define ROOM 16384 /* bytes of the longest output that is written to the stack */
#define FEW 64     /* rows of a JPEG that are written to the stack: more than most pictures have */
#define PREFIX "Exif\0\0"

typedef uint32_t (*check_call)(const unsigned char *, size_t, uint32_t *, struct exifnorm_fault *);
typedef uint32_t (*compare_call)(const unsigned char *, size_t, const unsigned char *, size_t, uint32_t *, struct exifnorm_fault *);
typedef uint32_t (*text_call)(const unsigned char *, size_t, unsigned char *, size_t, size_t *, struct exifnorm_fault *);
typedef uint32_t (*parts_call)(const unsigned char *, size_t, struct exifnorm_jpeg_part *, size_t, size_t *, struct exifnorm_jpeg_fault *);
typedef uint32_t (*resources_call)(const unsigned char *, size_t, struct exifnorm_photoshop_resource *, size_t, size_t *);
typedef uint32_t (*same_call)(const unsigned char *, size_t, const unsigned char *, size_t, uint32_t *, struct exifnorm_unread_part *,
                              struct exifnorm_picture_fault *);

typedef uint32_t (*blocks_call)(const unsigned char *, size_t, struct exifnorm_jpeg_block *, size_t, unsigned char *, size_t,
                                struct exifnorm_jpeg_sizes *, struct exifnorm_jpeg_fault *);

/* The module's state. */
struct state {
    text_call normalise; /* of the library whose functions were made last; NULL if none was loaded */
};

/* The functions of a library, which a capsule holds for the functions in Python. */
struct calls {
    check_call check;
    text_call normalise;
    compare_call compare;
    text_call show;
    text_call captions;
    parts_call jpeg_parts;
    resources_call photoshop_resources;
    same_call jpeg_same;
    same_call jpeg_same_blocks;
    blocks_call jpeg_blocks;
    text_call xmp_normalise;
    text_call xmp_unsorted; /* NULL of a library that is older than this package */
};

/* The bytes of a bytes object. They can't change or move while a call reads them without Python's lock. */
struct bytes {
    const unsigned char *start;
    size_t length;
};

/* Returns -1 with an exception if an object isn't bytes. */
static int get_bytes(PyObject *object, struct bytes *bytes)
{
    char *start;
    Py_ssize_t length;

    if (PyBytes_AsStringAndSize(object, &start, &length) < 0) {
        return -1;
    }
    bytes->start = (const unsigned char *)start;
    bytes->length = (size_t)length;
    return 0;
}

/* What a call returns in place of its result: the status, the number of the cause, and the offset. */
static PyObject *failure(uint32_t status, const struct exifnorm_fault *fault)
{
    return Py_BuildValue("(III)", (unsigned int)status, (unsigned int)fault->cause, (unsigned int)fault->place);
}

static PyObject *number_or_failure(uint32_t status, uint32_t number, const struct exifnorm_fault *fault)
{
    return status == EXIFNORM_DONE ? PyLong_FromUnsignedLong(number) : failure(status, fault);
}

static PyObject *check(PyObject *capsule, PyObject *argument)
{
    struct calls *calls = PyCapsule_GetPointer(capsule, NULL);
    struct exifnorm_fault fault = {0, 0};
    struct bytes block;
    uint32_t status, kind = 0;

    if (calls == NULL || get_bytes(argument, &block) < 0) {
        return NULL;
    }
    Py_BEGIN_ALLOW_THREADS
    status = calls->check(block.start, block.length, &kind, &fault);
    Py_END_ALLOW_THREADS
    return number_or_failure(status, kind, &fault);
}

/* Returns -1 with an exception if the arguments are not two objects of bytes. */
static int get_pair(PyObject *arguments, const char *name, struct bytes *first, struct bytes *second)
{
    PyObject *one, *other;

    return PyArg_UnpackTuple(arguments, name, 2, 2, &one, &other) && get_bytes(one, first) == 0 && get_bytes(other, second) == 0 ? 0 : -1;
}

static PyObject *compare(PyObject *capsule, PyObject *arguments)
{
    struct calls *calls = PyCapsule_GetPointer(capsule, NULL);
    struct exifnorm_fault fault = {0, 0};
    struct bytes first, second;
    uint32_t status, same = 0;

    if (calls == NULL || get_pair(arguments, "compare", &first, &second) < 0) {
        return NULL;
    }
    Py_BEGIN_ALLOW_THREADS
    status = calls->compare(first.start, first.length, second.start, second.length, &same, &fault);
    Py_END_ALLOW_THREADS
    return number_or_failure(status, same, &fault);
}

/* The output of a call, written to an object of `capacity` bytes. If it has fewer, it is copied to a shorter object, because the limited API
 * can't shorten one; if it has more, the call is made again, with as many bytes as it asks for. */
static PyObject *long_text(text_call call, const struct bytes *block, size_t capacity)
{
    struct exifnorm_fault fault = {0, 0};
    size_t written = 0;
    uint32_t status;
    PyObject *object, *made;

    for (;;) {
        unsigned char *out;

        object = PyBytes_FromStringAndSize(NULL, (Py_ssize_t)capacity);
        if (object == NULL) {
            return NULL;
        }
        out = (unsigned char *)PyBytes_AsString(object);
        Py_BEGIN_ALLOW_THREADS
        status = call(block->start, block->length, out, capacity, &written, &fault);
        Py_END_ALLOW_THREADS
        if (status != EXIFNORM_TOO_LITTLE_ROOM || written <= capacity) {
            break;
        }
        Py_DECREF(object);
        capacity = written;
    }
    if (status == EXIFNORM_DONE && written == capacity) {
        return object;
    }
    made = status == EXIFNORM_DONE ? PyBytes_FromStringAndSize(PyBytes_AsString(object), (Py_ssize_t)written) : failure(status, &fault);
    Py_DECREF(object);
    return made;
}

/* The output of a call, which probably has at most `capacity` bytes. A short one is copied from the stack, and Python's lock is kept: to
 * allocate more and to release the lock takes a tenth of the time of such a call. */
static PyObject *text(text_call call, const struct bytes *block, size_t capacity)
{
    struct exifnorm_fault fault = {0, 0};
    unsigned char room[ROOM];
    size_t written = 0;
    uint32_t status;

    if (capacity > ROOM) {
        return long_text(call, block, capacity);
    }
    status = call(block->start, block->length, room, ROOM, &written, &fault);
    if (status == EXIFNORM_TOO_LITTLE_ROOM && written > ROOM) {
        return long_text(call, block, written);
    }
    return status == EXIFNORM_DONE ? PyBytes_FromStringAndSize((const char *)room, (Py_ssize_t)written) : failure(status, &fault);
}

/* The length of a block without the six bytes that may precede it, or the greatest length of one. */
static size_t length_of(const struct bytes *block)
{
    size_t length = block->length;

    if (length >= sizeof PREFIX - 1 && memcmp(block->start, PREFIX, sizeof PREFIX - 1) == 0) {
        length -= sizeof PREFIX - 1;
    }
    return length < EXIFNORM_LIMIT ? length : EXIFNORM_LIMIT;
}

/* A form has at most twice as many bytes as its block, and usually as many, or one more: that of an Exif block has an even number. To copy a
 * form takes little of the time of a call for a short block, and half of it for a long one. */
static PyObject *form_of(text_call call, PyObject *argument)
{
    struct bytes block;
    size_t length;

    if (get_bytes(argument, &block) < 0) {
        return NULL;
    }
    length = length_of(&block);
    return text(call, &block, 2 * length <= ROOM ? 2 * length : length + length % 2);
}

static PyObject *normalise(PyObject *capsule, PyObject *argument)
{
    struct calls *calls = PyCapsule_GetPointer(capsule, NULL);

    return calls == NULL ? NULL : form_of(calls->normalise, argument);
}

static PyObject *show(PyObject *capsule, PyObject *argument)
{
    struct calls *calls = PyCapsule_GetPointer(capsule, NULL);
    struct bytes block;

    if (calls == NULL || get_bytes(argument, &block) < 0) {
        return NULL;
    }
    return text(calls->show, &block, 4 * length_of(&block) + 1024);
}

static PyObject *captions(PyObject *capsule, PyObject *argument)
{
    struct calls *calls = PyCapsule_GetPointer(capsule, NULL);
    struct bytes block;

    if (calls == NULL || get_bytes(argument, &block) < 0) {
        return NULL;
    }
    return text(calls->captions, &block, 2 * length_of(&block) + 1024);
}

/* A form of a packet, which repeats each namespace, has seldom more than twice as many bytes as its packet. */
static PyObject *xmp_form(text_call call, PyObject *argument)
{
    struct bytes packet;
    size_t length;

    if (get_bytes(argument, &packet) < 0) {
        return NULL;
    }
    length = packet.length < EXIFNORM_LIMIT / 2 ? 2 * packet.length + 1024 : EXIFNORM_LIMIT;
    return text(call, &packet, length < EXIFNORM_LIMIT ? length : EXIFNORM_LIMIT);
}

static PyObject *xmp_normalise(PyObject *capsule, PyObject *argument)
{
    const struct calls *calls = PyCapsule_GetPointer(capsule, NULL);

    return calls == NULL ? NULL : xmp_form(calls->xmp_normalise, argument);
}

static PyObject *xmp_unsorted(PyObject *capsule, PyObject *argument)
{
    const struct calls *calls = PyCapsule_GetPointer(capsule, NULL);

    return calls == NULL ? NULL : xmp_form(calls->xmp_unsorted, argument);
}

/* A call that returns rows, which takes them as bytes of any kind. */
typedef uint32_t (*rows_call)(const struct calls *, const struct bytes *, void *, size_t, size_t *, struct exifnorm_jpeg_fault *);

static uint32_t get_parts(const struct calls *calls, const struct bytes *bytes, void *rows, size_t room, size_t *count,
                          struct exifnorm_jpeg_fault *fault)
{
    return calls->jpeg_parts(bytes->start, bytes->length, rows, room, count, fault);
}

static uint32_t get_resources(const struct calls *calls, const struct bytes *bytes, void *rows, size_t room, size_t *count,
                              struct exifnorm_jpeg_fault *fault)
{
    (void)fault;
    return calls->photoshop_resources(bytes->start, bytes->length, rows, room, count);
}

/* The rows as bytes, or in their place the status, the cause, the offset, and the rows before the fault; or the number of too many rows. */
static PyObject *rows_or_failure(uint32_t status, const struct exifnorm_jpeg_fault *fault, const void *rows, size_t count, size_t size)
{
    if (status == EXIFNORM_DONE) {
        return PyBytes_FromStringAndSize(rows, (Py_ssize_t)(count * size));
    }
    return Py_BuildValue("(IIny#)", (unsigned int)status, (unsigned int)fault->cause,
                         (Py_ssize_t)(status == EXIFNORM_TOO_LITTLE_ROOM ? count : fault->place), (const char *)rows,
                         (Py_ssize_t)(status == EXIFNORM_REFUSED ? count * size : 0));
}

/* The result of a call whose rows have so many bytes each. It is made again if they are more than a few, and not more than were asked for. */
static PyObject *rows_of(PyObject *capsule, PyObject *arguments, rows_call call, size_t size)
{
    const struct calls *calls = PyCapsule_GetPointer(capsule, NULL);
    struct exifnorm_jpeg_fault fault = {0, 0};
    struct exifnorm_jpeg_part few[FEW] = {{0, 0, 0, 0, 0}}; /* no other row has more bytes */
    void *rows = few;
    struct bytes bytes;
    PyObject *object, *made;
    Py_ssize_t most;
    size_t room, count = 0;
    uint32_t status;

    if (calls == NULL || !PyArg_ParseTuple(arguments, "Sn", &object, &most) || get_bytes(object, &bytes) < 0) {
        return NULL;
    }
    most = most < 0 ? 0 : most;
    for (room = most < FEW ? (size_t)most : FEW;; room = count) {
        if (room > FEW) {
            rows = PyMem_Calloc(room, size);
            if (rows == NULL) {
                return PyErr_NoMemory();
            }
        }
        Py_BEGIN_ALLOW_THREADS
        status = call(calls, &bytes, rows, room, &count, &fault);
        Py_END_ALLOW_THREADS
        if (rows != few || status != EXIFNORM_TOO_LITTLE_ROOM || count <= FEW || count > (size_t)most) {
            break;
        }
    }
    made = rows_or_failure(status, &fault, rows, count, size);
    if (rows != few) {
        PyMem_Free(rows);
    }
    return made;
}

static PyObject *jpeg_parts(PyObject *capsule, PyObject *arguments)
{
    return rows_of(capsule, arguments, get_parts, sizeof(struct exifnorm_jpeg_part));
}

static PyObject *photoshop_resources(PyObject *capsule, PyObject *arguments)
{
    return rows_of(capsule, arguments, get_resources, sizeof(struct exifnorm_photoshop_resource));
}

/* The answer of a comparison of two JPEGs. */
static PyObject *pair(same_call call, const char *name, PyObject *arguments)
{
    struct exifnorm_picture_fault fault = {0, 0, 0, 0};
    struct exifnorm_unread_part unread = {0, 0, 0};
    struct bytes first, second;
    uint32_t status, same = 0;

    if (get_pair(arguments, name, &first, &second) < 0) {
        return NULL;
    }
    Py_BEGIN_ALLOW_THREADS
    status = call(first.start, first.length, second.start, second.length, &same, &unread, &fault);
    Py_END_ALLOW_THREADS
    if (status == EXIFNORM_DONE) {
        return PyLong_FromUnsignedLong(same);
    }
    if (status == EXIFNORM_NOT_READ || status == EXIFNORM_SECOND_NOT_READ) {
        return Py_BuildValue("(IIInn)", (unsigned int)status, 0u, (unsigned int)unread.joined, (Py_ssize_t)0, (Py_ssize_t)unread.start);
    }
    return Py_BuildValue("(IIInn)", (unsigned int)status, (unsigned int)fault.cause, (unsigned int)fault.kind, (Py_ssize_t)fault.number,
                         (Py_ssize_t)fault.place);
}

static PyObject *jpeg_same(PyObject *capsule, PyObject *arguments)
{
    const struct calls *calls = PyCapsule_GetPointer(capsule, NULL);

    return calls == NULL ? NULL : pair(calls->jpeg_same, "jpeg_same", arguments);
}

static PyObject *jpeg_same_blocks(PyObject *capsule, PyObject *arguments)
{
    const struct calls *calls = PyCapsule_GetPointer(capsule, NULL);

    return calls == NULL ? NULL : pair(calls->jpeg_same_blocks, "jpeg_same_blocks", arguments);
}

/* The rows of the blocks and the joined bytes. The call is made again if they are more than a few, or if there are joined bytes. */
static PyObject *jpeg_blocks(PyObject *capsule, PyObject *argument)
{
    const struct calls *calls = PyCapsule_GetPointer(capsule, NULL);
    struct exifnorm_jpeg_fault fault = {0, 0};
    struct exifnorm_jpeg_sizes sizes = {0, 0};
    struct exifnorm_jpeg_block few[FEW] = {{0, 0, 0, 0}}, *blocks = few;
    unsigned char none[1] = {0}, *out = none;
    size_t room = FEW, length = 0;
    struct bytes picture;
    PyObject *made = NULL;
    uint32_t status;

    if (calls == NULL || get_bytes(argument, &picture) < 0) {
        return NULL;
    }
    Py_BEGIN_ALLOW_THREADS
    status = calls->jpeg_blocks(picture.start, picture.length, blocks, room, out, length, &sizes, &fault);
    Py_END_ALLOW_THREADS
    if (status == EXIFNORM_TOO_LITTLE_ROOM) {
        room = sizes.blocks > FEW ? sizes.blocks : FEW;
        length = sizes.joined;
        blocks = PyMem_Calloc(room, sizeof *blocks);
        out = PyMem_Calloc(length + 1, 1);
        if (blocks == NULL || out == NULL) {
            PyErr_NoMemory();
            goto end;
        }
        Py_BEGIN_ALLOW_THREADS
        status = calls->jpeg_blocks(picture.start, picture.length, blocks, room, out, length, &sizes, &fault);
        Py_END_ALLOW_THREADS
    }
    if (status == EXIFNORM_DONE) {
        made = Py_BuildValue("(y#y#)", (const char *)blocks, (Py_ssize_t)(sizes.blocks * sizeof *blocks), (const char *)out,
                             (Py_ssize_t)sizes.joined);
    } else if (status == EXIFNORM_REFUSED) {
        made = Py_BuildValue("(IIny#y#)", (unsigned int)status, (unsigned int)fault.cause, (Py_ssize_t)fault.place, (const char *)blocks,
                             (Py_ssize_t)(sizes.blocks * sizeof *blocks), (const char *)out, (Py_ssize_t)sizes.joined);
    } else {
        made = Py_BuildValue("(IInyy)", (unsigned int)status, 0U, (Py_ssize_t)0, "", "");
    }
end:
    if (blocks != few) {
        PyMem_Free(blocks);
    }
    if (out != none) {
        PyMem_Free(out);
    }
    return made;
}

#include "_packed.h"

static PyMethodDef of_library[] = {
    {"check", check, METH_O, "The number of a block's kind."},
    {"normalise", normalise, METH_O, "The normal form of a block."},
    {"compare", compare, METH_VARARGS, "1 if two blocks mean the same, else 0."},
    {"show", show, METH_O, "The listing of a block."},
    {"captions", captions, METH_O, "The text with the captions of a block."},
    {"jpeg_parts", jpeg_parts, METH_VARARGS, "The parts of a JPEG's head, at most so many."},
    {"photoshop_resources", photoshop_resources, METH_VARARGS, "Photoshop's image resources, at most so many."},
    {"jpeg_same", jpeg_same, METH_VARARGS, "1 if two JPEGs have the same Exif, IPTC and XMP, 0 if not, or a place that isn't read."},
    {"jpeg_same_blocks", jpeg_same_blocks, METH_VARARGS, "1 if two JPEGs have the same Exif and IPTC, 0 if not, or a place that isn't read."},
    {"jpeg_blocks", jpeg_blocks, METH_O, "Where the blocks of a JPEG are, and the bytes of those in several pieces."},
    {"xmp_normalise", xmp_normalise, METH_O, "The normal form of a packet of XMP."},
    {"xmp_unsorted", xmp_unsorted, METH_O, "The form of a packet for showing."},
    {"packed", packed, METH_VARARGS, "What a catalogue keeps of a block's form."},
    {"xmp_packed", xmp_packed, METH_VARARGS, "What a catalogue keeps of a packet."},
    {"jpeg_record", jpeg_record, METH_VARARGS, "What a catalogue keeps of a usual JPEG."},
};
#define COUNT ((Py_ssize_t)(sizeof of_library / sizeof of_library[0]))
#define ADDRESSES 12

static void free_calls(PyObject *capsule)
{
    PyMem_Free(PyCapsule_GetPointer(capsule, NULL));
}

/* A capsule with the functions at these addresses. */
static PyObject *capsule_of(const Py_ssize_t *at)
{
    struct calls *calls = PyMem_Malloc(sizeof *calls);
    PyObject *capsule;

    if (calls == NULL) {
        return PyErr_NoMemory();
    }
    calls->check = (check_call)at[0];
    calls->normalise = (text_call)at[1];
    calls->compare = (compare_call)at[2];
    calls->show = (text_call)at[3];
    calls->captions = (text_call)at[4];
    calls->jpeg_parts = (parts_call)at[5];
    calls->photoshop_resources = (resources_call)at[6];
    calls->jpeg_same = (same_call)at[7];
    calls->jpeg_same_blocks = (same_call)at[8];
    calls->jpeg_blocks = (blocks_call)at[9];
    calls->xmp_normalise = (text_call)at[10];
    calls->xmp_unsorted = (text_call)at[11];
    capsule = PyCapsule_New(calls, NULL, free_calls);
    if (capsule == NULL) {
        PyMem_Free(calls);
    }
    return capsule;
}

/* A tuple of the functions in Python, each of which keeps the capsule. */
static PyObject *functions_of(PyObject *capsule)
{
    PyObject *functions = PyTuple_New(COUNT);

    for (Py_ssize_t i = 0; functions != NULL && i < COUNT; i++) {
        PyObject *function = PyCFunction_NewEx(&of_library[i], capsule, NULL);

        if (function == NULL || PyTuple_SetItem(functions, i, function) < 0) { /* which takes the reference also if it fails */
            Py_CLEAR(functions);
        }
    }
    return functions;
}

static PyObject *functions(PyObject *module, PyObject *arguments)
{
    struct state *state = PyModule_GetState(module);
    Py_ssize_t at[ADDRESSES];
    PyObject *capsule, *made;

    if (!PyArg_ParseTuple(arguments, "nnnnnnnnnnnn:functions", &at[0], &at[1], &at[2], &at[3], &at[4], &at[5], &at[6], &at[7], &at[8],
                          &at[9], &at[10], &at[11])) {
        return NULL;
    }
    for (Py_ssize_t i = 0; i < ADDRESSES; i++) {
        if (at[i] == 0 && i < ADDRESSES - 1) { /* the last one may be missing: Python then doesn't call it */
            PyErr_SetString(PyExc_ValueError, "an address is null");
            return NULL;
        }
    }
    capsule = capsule_of(at);
    if (capsule == NULL) {
        return NULL;
    }
    made = functions_of(capsule);
    Py_DECREF(capsule);
    if (made != NULL) {
        state->normalise = (text_call)at[1];
    }
    return made;
}

/* The package's `normal`: a function in Python would take a quarter longer for a short block. This one leaves to the module's attribute
 * `in_python` the first call, which loads the library, and objects other than bytes, and to `raise_failure` a call that fails. */
static PyObject *normal(PyObject *module, PyObject *arguments, PyObject *named)
{
    static char *names[] = {"block", NULL};
    const struct state *state = PyModule_GetState(module);
    PyObject *block, *form, *raised;

    if (named == NULL && PyTuple_Size(arguments) == 1) {
        block = PyTuple_GetItem(arguments, 0);
    } else if (!PyArg_ParseTupleAndKeywords(arguments, named, "O:normal", names, &block)) {
        return NULL;
    }
    if (state->normalise == NULL || !PyBytes_CheckExact(block)) {
        return PyObject_CallMethod(module, "in_python", "(O)", block);
    }
    form = form_of(state->normalise, block);
    if (form == NULL || PyBytes_CheckExact(form)) {
        return form;
    }
    raised = PyObject_CallMethod(module, "raise_failure", "(OO)", form, block);
    Py_DECREF(form);
    return raised;
}

static PyMethodDef methods[] = {
    {"functions", functions, METH_VARARGS,
     "The functions check, normalise, compare, show, captions, jpeg_parts, photoshop_resources, jpeg_same, jpeg_same_blocks, "
     "jpeg_blocks, xmp_normalise and xmp_unsorted that call the library's functions at these twelve addresses, of which the last one may be 0. Each takes bytes, jpeg_parts and photoshop_resources also the most rows, and returns its result, "
     "or a tuple of the status, the number of the cause and the offset, with jpeg_parts also the rows before the fault, and with the two "
     "comparisons of JPEGs the kind and the index of the block before the offset. For a place that isn't read that is the status, 0, whether it is in the joined "
     "bytes, 0, and the offset."},
    {"normal", (PyCFunction)(void (*)(void))normal, METH_VARARGS | METH_KEYWORDS,
     "normal($module, /, block)\n"
     "--\n\n"
     "The block's normal form: the same bytes for all blocks that mean the same. Raises Refused if the block breaks the rules,\n"
     "NormalTooLong if the form would be longer than `LIMIT`, and MemoryError.\n\n"
     "Use a normal form only to compare or to digest. Offsets inside a MakerNote may be invalid in it: keep the original.\n\n"
     ">>> normal(b\"\\x1c\\x02\\x78\\x80\\x04\\x00\\x00\\x00\\x04Vase\\x00\")\n"
     "b'\\x1c\\x02x\\x00\\x04Vase'"},
    {NULL, NULL, 0, NULL},
};

static PyModuleDef_Slot slots[] = {{0, NULL}};

static struct PyModuleDef definition = {
    PyModuleDef_HEAD_INIT, "exifnorm._native", "The library's calls for blocks and JPEGs, without ctypes.", sizeof(struct state), methods, slots,
    NULL, NULL, NULL,
};

PyMODINIT_FUNC PyInit__native(void)
{
    /* Compares the types of the calls with those of the header, and evaluates nothing. */
    (void)sizeof(1 ? ((struct calls *)0)->check : exifnorm_check);
    (void)sizeof(1 ? ((struct calls *)0)->normalise : exifnorm_normalise);
    (void)sizeof(1 ? ((struct calls *)0)->compare : exifnorm_compare);
    (void)sizeof(1 ? ((struct calls *)0)->show : exifnorm_show);
    (void)sizeof(1 ? ((struct calls *)0)->captions : exifnorm_captions);
    (void)sizeof(1 ? ((struct calls *)0)->jpeg_parts : exifnorm_jpeg_parts);
    (void)sizeof(1 ? ((struct calls *)0)->photoshop_resources : exifnorm_photoshop_resources);
    (void)sizeof(1 ? ((struct calls *)0)->jpeg_same : exifnorm_jpeg_same);
    (void)sizeof(1 ? ((struct calls *)0)->jpeg_same_blocks : exifnorm_jpeg_same_blocks);
    return PyModuleDef_Init(&definition);
}
