/* Calls a Python function while one of the allocations that Python makes fails. Built as a shared library, and called with Python's lock.

Only allocations of the calling thread count: pytest-xdist has another one, which would lose its connection. */
#define PY_SSIZE_T_CLEAN
#include <Python.h>
#include <pthread.h>

/* Whether an allocation of the last call was refused. */
int was_refused;
/* How many allocations are made until the one that fails; 0: none fails. */
static long left;
static pthread_t caller;
static PyMemAllocatorEx real[2];

static int fails(void) {
    return left > 0 && pthread_equal(pthread_self(), caller) && --left == 0;
}

static void *allocate(void *of, size_t size) {
    PyMemAllocatorEx *it = of;
    return fails() ? NULL : it->malloc(it->ctx, size);
}

static void *allocate_zeros(void *of, size_t count, size_t size) {
    PyMemAllocatorEx *it = of;
    return fails() ? NULL : it->calloc(it->ctx, count, size);
}

static void *reallocate(void *of, void *old, size_t size) {
    PyMemAllocatorEx *it = of;
    return fails() ? NULL : it->realloc(it->ctx, old, size);
}

static void release(void *of, void *old) {
    PyMemAllocatorEx *it = of;
    it->free(it->ctx, old);
}

/* The result of a call with one argument, during which the allocation of this number fails. */
PyObject *call_refused(PyObject *function, PyObject *argument, long number) {
    const PyMemAllocatorDomain domains[2] = {PYMEM_DOMAIN_MEM, PYMEM_DOMAIN_OBJ};
    PyMemAllocatorEx ours[2];
    PyObject *result;
    for (int it = 0; it < 2; it++) {
        PyMem_GetAllocator(domains[it], &real[it]);
        ours[it] = (PyMemAllocatorEx){&real[it], allocate, allocate_zeros, reallocate, release};
        PyMem_SetAllocator(domains[it], &ours[it]);
    }
    caller = pthread_self();
    left = number;
    result = PyObject_CallFunctionObjArgs(function, argument, NULL);
    was_refused = left == 0;
    left = 0;
    for (int it = 0; it < 2; it++)
        PyMem_SetAllocator(domains[it], &real[it]);
    return result;
}
