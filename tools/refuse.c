// Refuses each allocation of a program in turn. Loaded before a program, it takes the place of malloc and its kin. At each
// allocation the process splits in two: the child is refused this one allocation and runs to its end with its output kept
// apart, and then the parent is given the memory and goes on. For each child a line is added to the file that REFUSED
// names: the number of the allocation, the exit code (or minus the signal), the bytes written to standard output in hex
// digits (or a dash), and the first line on standard error.
//
// A checked program with a malloc of its own has the entry of each such function replaced by a jump to the one here.
#define _GNU_SOURCE
#include <dlfcn.h>
#include <fcntl.h>
#include <stdint.h>
#include <stdio.h>
#include <stdlib.h>
#include <string.h>
#include <sys/mman.h>
#include <sys/syscall.h>
#include <sys/wait.h>
#include <unistd.h>

enum { CLASSES = 40, HEAD = 16 };
static const size_t ROOM = (size_t)4 << 30;
static char *arena, *next_free;
static void *freed[CLASSES];
static int log_file = -1, is_child, is_noting;
static unsigned long count;

// The power of two that holds a size and its head.
static int class_of(size_t size) {
  int class = 5;
  while (((size_t)1 << class) < size + HEAD) class++;
  return class;
}

static void *give(size_t size) {
  int class = class_of(size);
  char *block = freed[class];
  if (block) {
    memcpy(&freed[class], block, sizeof(void *));
    return block;
  }
  if (!arena) {
    arena = next_free = mmap(0, ROOM, PROT_READ | PROT_WRITE, MAP_PRIVATE | MAP_ANONYMOUS | MAP_NORESERVE, -1, 0);
    if (arena == MAP_FAILED) _exit(99);
  }
  if (next_free + ((size_t)1 << class) > arena + ROOM) _exit(99);
  block = next_free + HEAD;
  *(size_t *)(block - HEAD) = class;
  next_free += (size_t)1 << class;
  return block;
}

// What a child wrote, in hex digits, at most as much as there is room for.
static void note_output(int out) {
  unsigned char bytes[4096];
  ssize_t got = pread(out, bytes, sizeof bytes, 0);
  if (got <= 0) dprintf(log_file, "-");
  for (ssize_t at = 0; at < got; at++) dprintf(log_file, "%02x", bytes[at]);
}

// Waits for a refused child and notes how it ended.
static void note(pid_t child, int out, int err) {
  int status;
  char words[100];
  if (waitpid(child, &status, 0) != child) _exit(99);
  ssize_t got = pread(err, words, sizeof words - 1, 0);
  words[got < 0 ? 0 : got] = 0;
  words[strcspn(words, "\n")] = 0;
  dprintf(log_file, "%lu %d ", count, WIFEXITED(status) ? WEXITSTATUS(status) : -WTERMSIG(status));
  note_output(out);
  dprintf(log_file, " %s\n", words);
}

// Whether this allocation is to be refused: yes in the child that is made for it. What the notes take themselves isn't counted.
static int refused(void) {
  if (log_file < 0 || is_child || is_noting) return 0;
  is_noting = 1;
  count++;
  int out = syscall(SYS_memfd_create, "out", 0), err = syscall(SYS_memfd_create, "err", 0);
  pid_t child = fork();
  if (out < 0 || err < 0 || child < 0) _exit(99);
  if (child == 0) {
    is_child = 1;
    dup2(out, 1);
    dup2(err, 2);
    return 1;
  }
  note(child, out, err);
  close(out);
  close(err);
  is_noting = 0;
  return 0;
}

static void *our_malloc(size_t size) { return refused() ? 0 : give(size); }

static void our_free(void *block) {
  if (!arena || (char *)block < arena || (char *)block >= arena + ROOM) return;
  int class = *(size_t *)((char *)block - HEAD);
  memcpy(block, &freed[class], sizeof(void *));
  freed[class] = block;
}

static void *our_calloc(size_t number, size_t size) {
  void *block = refused() ? 0 : give(number * size);
  return block ? memset(block, 0, number * size) : 0;
}

static void *our_realloc(void *block, size_t size) {
  if (refused()) return 0;
  void *other = give(size);
  if (!block) return other;
  size_t old = ((size_t)1 << *(size_t *)((char *)block - HEAD)) - HEAD;
  memcpy(other, block, old < size ? old : size);
  our_free(block);
  return other;
}

void *malloc(size_t) __attribute__((alias("our_malloc")));
void *calloc(size_t, size_t) __attribute__((alias("our_calloc")));
void *realloc(void *, size_t) __attribute__((alias("our_realloc")));
void free(void *) __attribute__((alias("our_free")));

// Replaces the entry of a function of the program itself by a jump.
static void replace(const char *name, void *here) {
  unsigned char *there = dlsym(RTLD_DEFAULT, name), jump[14] = {0xff, 0x25, 0, 0, 0, 0};
  if (!there || (void *)there == here) return;
  if (*there == 0xe9) there += 5 + *(int32_t *)(there + 1);
  memcpy(jump + 6, &here, sizeof here);
  uintptr_t page = (uintptr_t)there & ~(uintptr_t)4095;
  if (mprotect((void *)page, 8192, PROT_READ | PROT_WRITE | PROT_EXEC)) _exit(99);
  memcpy(there, jump, sizeof jump);
}

__attribute__((constructor)) static void start(void) {
  const char *name = getenv("REFUSED");
  if (!name) return;
  replace("malloc", our_malloc);
  replace("free", our_free);
  replace("calloc", our_calloc);
  replace("realloc", our_realloc);
  log_file = open(name, O_WRONLY | O_CREAT | O_APPEND, 0600);
}
