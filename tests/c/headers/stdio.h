#ifndef STDIO_H
#define STDIO_H
#include <stddef.h>
typedef struct _IO_FILE FILE;
extern FILE *stdin, *stdout, *stderr;
FILE *fopen(const char *path, const char *mode);
int fclose(FILE *file);
int fflush(FILE *file);
int setvbuf(FILE *file, char *buffer, int mode, size_t size);
char *fgets(char *line, int size, FILE *file);
size_t fread(void *to, size_t size, size_t count, FILE *file);
size_t fwrite(const void *from, size_t size, size_t count, FILE *file);
int ferror(FILE *file);
int rename(const char *from, const char *to);
int printf(const char *form, ...) __attribute__((format(printf, 1, 2)));
int fprintf(FILE *file, const char *form, ...) __attribute__((format(printf, 2, 3)));
int snprintf(char *to, size_t size, const char *form, ...) __attribute__((format(printf, 3, 4)));
int sscanf(const char *text, const char *form, ...) __attribute__((format(scanf, 2, 3)));
int vfprintf(FILE *file, const char *form, __builtin_va_list words);
int fgetc(FILE *file);
int puts(const char *line);
int putchar(int byte);
#define EOF (-1)
#define _IOFBF 0
#endif
