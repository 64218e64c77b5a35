/* Refuses memory once: the allocation of the number that REFUSE has, counted from 1, answers nothing. It is
 * loaded before the C library, whose own names for the same calls it passes on to. On standard error it
 * says where that came: in what is growing, as its bytes show. */
#include <stddef.h>
#include <stdlib.h>
#include <string.h>
#include <unistd.h>

extern void *__libc_malloc(size_t size);
extern void *__libc_realloc(void *block, size_t size);
extern size_t malloc_usable_size(void *block);

static long wanted = -1;
static long count;

/* Whether this allocation is the one to be refused. */
static int is_refused(void) {
  if (wanted < 0) {
    const char *number = getenv("REFUSE");
    wanted = number ? atol(number) : 0;
  }
  return __atomic_add_fetch(&count, 1, __ATOMIC_SEQ_CST) == wanted;
}

static void say(const char *where) {
  ssize_t written = write(2, where, strlen(where));
  (void)written;
}

/* What grows, by its first key: what begins with the first reply and has a line feed is what the sink was
 * given; what begins with a reply or a note else is the text of an event. */
static const char *growing(const char *block) {
  static const char *const heads[] = {"{\"line\":1,", "{\"line\":", "{\"info\":", "{\"count\":", "{\"attempts\":"};
  size_t size = malloc_usable_size((void *)block);
  for (size_t place = 0; place < sizeof heads / sizeof *heads; place++) {
    size_t length = strlen(heads[place]);
    if (size < length || memcmp(block, heads[place], length) != 0) continue;
    return place == 0 && memchr(block, '\n', size) ? "refused: sink\n" : "refused: text\n";
  }
  return "refused: other\n";
}

void *malloc(size_t size) {
  if (is_refused()) {
    say("refused: other\n");
    return NULL;
  }
  return __libc_malloc(size);
}

void *realloc(void *block, size_t size) {
  if (is_refused()) {
    say(block ? growing(block) : "refused: other\n");
    return NULL;
  }
  return __libc_realloc(block, size);
}
