#ifndef STDLIB_H
#define STDLIB_H
#include <stddef.h>
void exit(int status) __attribute__((noreturn));
unsigned long strtoul(const char *text, char **end, int base);
long strtol(const char *text, char **end, int base);
float strtof(const char *text, char **end);
double strtod(const char *text, char **end);
#define EXIT_SUCCESS 0
#define EXIT_FAILURE 1
#endif
