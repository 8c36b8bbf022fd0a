// test_as_cpp.cpp: the unit test of an application, which is the file TEST, as C++17. The application itself is C.
#include <stdbool.h>
#include <stddef.h>
#include <stdint.h>
#include <stdio.h>
#include <string.h>

extern "C" {
#include TEST
}
