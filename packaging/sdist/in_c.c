/* The library as a module that Python installs. _library.py finds its file, and calls the functions of exifnorm.h in it. Nothing imports it, so
 * a C compiler without Python's headers is enough. With them it is an empty module, for programs that import all that there is. */
#ifdef __has_include
#if __has_include(<Python.h>)
#define HAS_PYTHON_H
#include <Python.h>
#endif
#endif

#include "exifnorm.c"

#ifdef HAS_PYTHON_H
static struct PyModuleDef definition = {PyModuleDef_HEAD_INIT, "exifnorm._in_c", "The library of exifnorm.h in C.", 0, NULL, NULL, NULL, NULL, NULL};

PyMODINIT_FUNC PyInit__in_c(void) { return PyModule_Create(&definition); }
#else
void *PyInit__in_c(void) { return NULL; } /* setuptools exports it on Windows */
#endif
