/* Refuses a program one allocation, and starts of threads. It is loaded before the C library (LD_PRELOAD).

   REFUSE=N has the Nth allocation answer NULL that is asked for between the lines 'begin' and 'end' on standard output; 0
   or none refuses nothing. With LEAST=B it is the Nth one of at least B bytes since the start of the program.

   STARTS is a digit for each start of a thread, the last one for all that follow too: 0 refuses it, 1 does not.

   When the program ends, how many allocations and starts it has asked for is told on standard error. */

typedef unsigned long size;

extern void *__libc_malloc(size);
extern void *__libc_calloc(size, size);
extern void *__libc_realloc(void *, size);
extern char *getenv(const char *);
extern int *__errno_location(void);
extern void *dlsym(void *, const char *);

static const int no_memory = 12; /* ENOMEM */
static const int no_thread = 11; /* EAGAIN */
#define THE_NEXT_LIBRARY ((void *)-1L)

static int is_counting;
static unsigned long asked, refused, least, started;
static const char *starts;

static long system_write(int file, const void *bytes, size count) {
  long written;
  __asm__ volatile("syscall" : "=a"(written) : "a"(1L), "D"((long)file), "S"(bytes), "d"(count)
                   : "rcx", "r11", "memory");
  return written;
}

static unsigned long number_in(const char *name) {
  const char *digit = getenv(name);
  unsigned long number = 0;
  for (; digit && *digit >= '0' && *digit <= '9'; digit++)
    number = number * 10 + (unsigned long)(*digit - '0');
  return number;
}

__attribute__((constructor)) static void prepare(void) {
  refused = number_in("REFUSE");
  least = number_in("LEAST");
  starts = getenv("STARTS");
  is_counting = least > 0;
}

static void tell(unsigned long count, char behind) {
  char text[24];
  int at = sizeof text;
  text[--at] = behind;
  do
    text[--at] = (char)('0' + count % 10);
  while (count /= 10);
  system_write(2, text + at, sizeof text - (size)at);
}

/* The program ends by this alone. */
__attribute__((noreturn)) void _exit(int status) {
  tell(asked, ' ');
  tell(started, '\n');
  for (;;)
    __asm__ volatile("syscall" : : "a"(231L), "D"((long)status) : "rcx", "r11", "memory");
}

static int is_refused(size count) {
  if (count < least || !__atomic_load_n(&is_counting, __ATOMIC_SEQ_CST))
    return 0;
  if (__atomic_add_fetch(&asked, 1, __ATOMIC_SEQ_CST) != refused)
    return 0;
  *__errno_location() = no_memory;
  return 1;
}

void *malloc(size count) { return is_refused(count) ? 0 : __libc_malloc(count); }

void *calloc(size items, size count) { return is_refused(items * count) ? 0 : __libc_calloc(items, count); }

void *realloc(void *block, size count) { return is_refused(count) ? 0 : __libc_realloc(block, count); }

/* One thread alone starts others. */
int pthread_create(void *thread, const void *attributes, void *(*run)(void *), void *argument) {
  int (*start)(void *, const void *, void *(*)(void *), void *) = dlsym(THE_NEXT_LIBRARY, "pthread_create");
  int is_refused = starts && *starts == '0';
  started++;
  if (starts && *starts && starts[1])
    starts++;
  return is_refused ? no_thread : start(thread, attributes, run, argument);
}

/* The program looks at nothing but how many bytes were written. */
long write(int file, const void *bytes, size count) {
  const char *text = bytes;
  long written;
  if (!least && file == 1 && count >= 3 && text[0] == 'e' && text[1] == 'n' && text[2] == 'd')
    __atomic_store_n(&is_counting, 0, __ATOMIC_SEQ_CST);
  written = system_write(file, bytes, count);
  if (file == 1 && count >= 5 && text[0] == 'b' && text[1] == 'e' && text[2] == 'g')
    __atomic_store_n(&is_counting, 1, __ATOMIC_SEQ_CST);
  return written < 0 ? -1 : written;
}
