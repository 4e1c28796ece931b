/* Exact cover by Algorithm X (The Art of Computer Programming, volume 4B, section 7.2.2.1), written to be compared with
   `polylab cover`: the same texts in, the same lines out, the same run. A fault of the text ends the program with a line
   on standard error: only good texts are of interest here.

       exact_cover [STEPS] < TEXT

   With STEPS the search ends before the first X2 that comes after so many steps, and what it met so far is told, as
   `polylab resume --list --steps` tells it of the steps that are printed.

   X3 takes the first item whose list is the shortest. The search has five forms:

   - Dancing links in the published form. The nodes have 32-bit fields TOP (LEN in a head), ULINK and DLINK, and a spacer
     stands between options; the row of items has LLINK and RLINK.
   - With -DRING a node has a fourth link, to the next node of its option (the first one after the last), so that hiding
     and unhiding test no spacer: within an option they may go in one order, since its nodes stand in lists of their own.
   - With -DOFFSETS the links of that ring are counted in bytes, so that no number is multiplied by the size of a node.
   - With -DCOUNTED there are fewer jumps beside that that a processor guesses wrong: a list is gone through by its length,
     which is known before its links are read; the items of an option are covered along the ring, and are uncovered as a
     stack has them, so that neither meets a spacer.
   - With -DBITS there are no links. The options that are left at a level are a set, kept as those words of it that are
     not 0; to take an option, all options that have one of its items are taken out of the set. The lengths of lists are
     counted each time, so the processor should count bits: -march=x86-64-v2 where it is one of those. */

#include <stdint.h>
#include <stdio.h>
#include <stdlib.h>
#include <string.h>

#ifdef COUNTED
#define OFFSETS
#endif
#ifdef OFFSETS
#define RING
#endif

static uint32_t item_count, primary_count, option_count;
static uint64_t most_steps = UINT64_MAX;

static void fail(const char *what) {
  fprintf(stderr, "exact_cover: %s\n", what);
  exit(1);
}

static void *grown(void *old, size_t bytes) {
  void *new = realloc(old, bytes);
  if (!new) fail("out of memory");
  return new;
}

static void *zeros(size_t count, size_t bytes) {
  void *new = calloc(count ? count : 1, bytes);
  if (!new) fail("out of memory");
  return new;
}

/* Writing, through one buffer. */

static char output[1 << 16];
static size_t written;

static void flush(void) {
  if (fwrite(output, 1, written, stdout) != written) fail("writing failed");
  written = 0;
}

static void put_text(const char *text) {
  size_t length = strlen(text);
  if (written + length > sizeof output) flush();
  memcpy(output + written, text, length);
  written += length;
}

/* A blank and a number, once there is room for one of 64 bits. */
static void put_number(uint64_t number) {
  if (written + 21 > sizeof output) flush();
  size_t digits = 1;
  for (uint64_t rest = number; rest >= 10; rest /= 10) digits++;
  char *end = output + written + 1 + digits;
  output[written] = ' ';
  written += 1 + digits;
  do *--end = '0' + number % 10;
  while (number /= 10);
}

static void put_totals(uint64_t visits, uint64_t steps, const uint64_t *levels, uint32_t deepest) {
  put_text("visits");
  put_number(visits);
  put_text("\nsteps");
  put_number(steps);
  put_text("\nlevels");
  for (uint32_t l = 0; l <= deepest; l++) put_number(levels[l]);
  put_text("\n");
  flush();
}

#ifndef BITS

/* The table: nodes with links. */

typedef struct {
  int32_t top; /* a head's LEN; a spacer has minus the number of the option before it */
  uint32_t up, down;
#ifdef RING
  uint32_t next; /* in its option, round it */
#endif
} Node;

typedef struct {
  uint32_t left, right;
} Item;

static Node *nodes;
static Item *items;
static uint32_t node_count, node_room;

/* A link is the number of the nodes before the one that it leads to, or of the bytes that these take. An item goes by
   the link to its head. */
#ifdef OFFSETS
enum { STEP = sizeof(Node) };
#define NODE(link) (*(Node *)((char *)nodes + (link)))
#define ITEM(link) (*(Item *)((char *)items + (link) / (STEP / sizeof(Item))))
#else
enum { STEP = 1 };
#define NODE(link) nodes[link]
#define ITEM(link) items[link]
#endif

static uint32_t add_node(int32_t top, uint32_t up, uint32_t down) {
  if (node_count == node_room) {
    node_room = node_room ? 2 * node_room : 1024;
    nodes = grown(nodes, node_room * sizeof *nodes);
  }
  nodes[node_count] = (Node){.top = top, .up = up, .down = down};
  return node_count++ * STEP;
}

static void begin_items(void) { add_node(0, 0, 0); }

static uint32_t add_item(void) {
  uint32_t item = ++item_count * STEP;
  return add_node(0, item, item);
}

static void begin_options(void) { add_node(0, 0, 0); }

static void add_to_option(uint32_t item) {
  uint32_t last = NODE(item).up, node = add_node((int32_t)item, last, item);
  NODE(last).down = NODE(item).up = node;
  NODE(item).top++;
}

static uint32_t begin_option(void) { return (node_count - 1) * STEP; }

/* The spacer after an option knows the option's first node, the one before it its last. */
static void end_option(uint32_t spacer) {
  uint32_t first = spacer + STEP, last = (node_count - 1) * STEP;
#ifdef RING
  for (uint32_t x = first; x <= last; x += STEP) NODE(x).next = x < last ? x + STEP : first;
#endif
  NODE(spacer).down = last;
  add_node(-(int32_t)++option_count, first, 0);
}

static void end_text(void) {
  items = grown(NULL, (item_count + 1) * sizeof *items);
  for (uint32_t i = 0; i <= item_count; i++) items[i] = (Item){i * STEP, i * STEP};
  for (uint32_t i = 0; i <= primary_count; i++) {
    items[i].left = (i ? i - 1 : primary_count) * STEP;
    items[i].right = (i < primary_count ? i + 1 : 0) * STEP;
  }
}

/* The search. */

#ifdef RING
static void hide(uint32_t p) {
  for (uint32_t q = NODE(p).next; q != p; q = NODE(q).next) {
    uint32_t up = NODE(q).up, down = NODE(q).down;
    NODE(up).down = down;
    NODE(down).up = up;
    NODE(NODE(q).top).top--;
  }
}

static void unhide(uint32_t p) {
  for (uint32_t q = NODE(p).next; q != p; q = NODE(q).next) {
    NODE(NODE(q).up).down = q;
    NODE(NODE(q).down).up = q;
    NODE(NODE(q).top).top++;
  }
}
#else
static void hide(uint32_t p) {
  for (uint32_t q = p + STEP; q != p;) {
    int32_t top = NODE(q).top;
    uint32_t up = NODE(q).up, down = NODE(q).down;
    if (top <= 0) {
      q = up;
    } else {
      NODE(up).down = down;
      NODE(down).up = up;
      NODE(top).top--;
      q += STEP;
    }
  }
}

static void unhide(uint32_t p) {
  for (uint32_t q = p - STEP; q != p;) {
    int32_t top = NODE(q).top;
    uint32_t up = NODE(q).up, down = NODE(q).down;
    if (top <= 0) {
      q = down;
    } else {
      NODE(up).down = q;
      NODE(down).up = q;
      NODE(top).top++;
      q -= STEP;
    }
  }
}
#endif

#ifdef COUNTED
static uint32_t *covered, covered_count;
#endif

static void cover(uint32_t i) {
#ifdef COUNTED
  uint32_t p = NODE(i).down;
  for (int32_t rest = NODE(i).top; rest; rest--, p = NODE(p).down) hide(p);
  covered[covered_count++] = i;
#else
  for (uint32_t p = NODE(i).down; p != i; p = NODE(p).down) hide(p);
#endif
  uint32_t left = ITEM(i).left, right = ITEM(i).right;
  ITEM(left).right = right;
  ITEM(right).left = left;
}

static void uncover(uint32_t i) {
  uint32_t left = ITEM(i).left, right = ITEM(i).right;
  ITEM(left).right = i;
  ITEM(right).left = i;
#ifdef COUNTED
  uint32_t p = NODE(i).up;
  for (int32_t rest = NODE(i).top; rest; rest--, p = NODE(p).up) unhide(p);
  covered_count--;
#else
  for (uint32_t p = NODE(i).up; p != i; p = NODE(p).up) unhide(p);
#endif
}

static uint32_t chosen(void) {
  uint32_t best = 0;
  int32_t least = INT32_MAX;
  for (uint32_t i = ITEM(0).right; i; i = ITEM(i).right)
    if (NODE(i).top < least) {
      least = NODE(i).top;
      best = i;
      if (!least) break;
    }
  return best;
}

static uint32_t option_of(uint32_t x) {
  while (NODE(x).top > 0) x += STEP;
  return (uint32_t)-NODE(x).top;
}

static void put_visit(const uint32_t *path, uint32_t level) {
  put_text("visit");
  for (uint32_t l = 0; l < level; l++) put_number(option_of(path[l]));
  put_text("\n");
}

static void search(void) {
  uint32_t *path = zeros(item_count + 1, sizeof *path), level = 0, deepest = 0, i = 0;
  uint64_t *levels = zeros(item_count + 1, sizeof *levels), visits = 0, steps = 1;
#ifdef COUNTED
  covered = zeros(item_count, sizeof *covered);
#endif

enter: /* X2 */
  if (steps >= most_steps) goto end;
  steps++;
  levels[level]++;
  if (level > deepest) deepest = level;
  if (!ITEM(0).right) {
    visits++;
    put_visit(path, level);
    goto leave;
  }
  i = chosen(); /* X3 */
  cover(i);     /* X4 */
  path[level] = NODE(i).down;
  steps += 2;

try: /* X5 */
  steps++;
  if (path[level] != i) {
#ifdef COUNTED
    for (uint32_t p = NODE(path[level]).next; p != path[level]; p = NODE(p).next) cover((uint32_t)NODE(p).top);
#else
    for (uint32_t p = path[level] + STEP; p != path[level];) {
      int32_t top = NODE(p).top;
      if (top <= 0) {
        p = NODE(p).up;
      } else {
        cover((uint32_t)top);
        p += STEP;
      }
    }
#endif
    level++;
    goto enter;
  }
  uncover(i); /* X7 */
  steps++;

leave: /* X8 */
  steps++;
  if (level) {
    level--;
#ifdef COUNTED
    while (covered[covered_count - 1] != (uint32_t)NODE(path[level]).top) uncover(covered[covered_count - 1]); /* X6 */
#else
    for (uint32_t p = path[level] - STEP; p != path[level];) { /* X6 */
      int32_t top = NODE(p).top;
      if (top <= 0) {
        p = NODE(p).down;
      } else {
        uncover((uint32_t)top);
        p -= STEP;
      }
    }
#endif
    i = (uint32_t)NODE(path[level]).top;
    path[level] = NODE(path[level]).down;
    steps++;
    goto try;
  }

end:
  put_totals(visits, steps, levels, deepest);
#ifdef COUNTED
  free(covered);
#endif
  free(path);
  free(levels);
  free(nodes);
  free(items);
}

#else

/* The table: for each item the set of the options that have it, a bit for each option. */

enum { WORD = 64 };

static uint32_t *option_items; /* of all options, one after the other */
static size_t *option_ends;    /* where those of each option end, with a 0 before the first */
static size_t node_count, node_room;
static uint32_t option_room;
static uint64_t *columns; /* a row of `words` for each item */
static size_t words;

static void begin_items(void) {}

static uint32_t add_item(void) { return ++item_count; }

static void begin_options(void) { option_ends = zeros(1, sizeof *option_ends); }

static uint32_t begin_option(void) { return 0; }

static void add_to_option(uint32_t item) {
  if (node_count == node_room) {
    node_room = node_room ? 2 * node_room : 1024;
    option_items = grown(option_items, node_room * sizeof *option_items);
  }
  option_items[node_count++] = item;
}

static void end_option(uint32_t begun) {
  (void)begun;
  if (++option_count > option_room) {
    option_room = 2 * option_count;
    option_ends = grown(option_ends, (option_room + 1) * sizeof *option_ends);
  }
  option_ends[option_count] = node_count;
}

static uint64_t *column(uint32_t item) { return columns + (item - 1) * words; }

static void end_text(void) {
  words = (option_count + WORD - 1) / WORD;
  columns = zeros(item_count * words, sizeof *columns);
  for (uint32_t o = 0; o < option_count; o++)
    for (size_t at = option_ends[o]; at < option_ends[o + 1]; at++) column(option_items[at])[o / WORD] |= 1ull << o % WORD;
}

/* The search: a level has the options that are left as those words of their set that are not 0, and its active items. */

typedef struct {
  uint64_t word;
  uint32_t place;
} Part;

static Part *parts;         /* a row with room for `words` for each level */
static uint32_t *counts;    /* how many each level has */
static uint64_t *active;    /* a row of `active_words` for each level, a bit for each item that must be covered */
static size_t active_words;
static uint32_t *path, deepest;
static uint64_t *levels, visits, steps;

static uint32_t length_of(uint32_t level, uint32_t item) {
  const Part *part = parts + level * words, *end = part + counts[level];
  const uint64_t *row = column(item);
  uint32_t length = 0;
  for (; part < end; part++) length += (uint32_t)__builtin_popcountll(part->word & row[part->place]);
  return length;
}

static uint32_t chosen(uint32_t level) {
  uint32_t best = 0, least = UINT32_MAX;
  for (size_t at = 0; at < active_words; at++)
    for (uint64_t rest = active[level * active_words + at]; rest; rest &= rest - 1) {
      uint32_t item = (uint32_t)(at * WORD) + (uint32_t)__builtin_ctzll(rest) + 1, length = length_of(level, item);
      if (length < least) {
        least = length;
        best = item;
        if (!length) return best;
      }
    }
  return best;
}

/* The level after this one has what the first of its option's items leaves of this one, and what the others leave of that. */
static void take_option(uint32_t level, uint32_t o) {
  const Part *from = parts + level * words;
  Part *to = parts + (level + 1) * words;
  uint64_t *rest = active + (level + 1) * active_words;
  uint32_t count = counts[level];
  memcpy(rest, rest - active_words, active_words * sizeof *rest);
  for (size_t at = option_ends[o]; at < option_ends[o + 1]; at++) {
    uint32_t item = option_items[at], kept = 0;
    const uint64_t *row = column(item);
    for (uint32_t p = 0; p < count; p++) {
      uint64_t word = from[p].word & ~row[from[p].place];
      to[kept] = (Part){word, from[p].place};
      kept += word != 0;
    }
    from = to;
    count = kept;
    if (item <= primary_count) rest[(item - 1) / WORD] &= ~(1ull << (item - 1) % WORD);
  }
  counts[level + 1] = count;
}

static void put_visit(uint32_t level) {
  put_text("visit");
  for (uint32_t l = 0; l < level; l++) put_number(path[l] + 1);
  put_text("\n");
}

static int is_covered(uint32_t level) {
  for (size_t at = 0; at < active_words; at++)
    if (active[level * active_words + at]) return 0;
  return 1;
}

static void enter(uint32_t level) {
  if (steps >= most_steps) {
    put_totals(visits, steps, levels, deepest);
    exit(0);
  }
  steps++; /* X2 */
  levels[level]++;
  if (level > deepest) deepest = level;
  if (is_covered(level)) {
    visits++;
    put_visit(level);
  } else {
    uint32_t item = chosen(level); /* X3, X4 */
    const uint64_t *row = column(item);
    steps += 2;
    for (uint32_t p = 0; p < counts[level]; p++) {
      Part part = parts[level * words + p];
      for (uint64_t rest = part.word & row[part.place]; rest; rest &= rest - 1) {
        steps++; /* X5 */
        path[level] = part.place * WORD + (uint32_t)__builtin_ctzll(rest);
        take_option(level, path[level]);
        enter(level + 1);
        steps++; /* X6 */
      }
    }
    steps += 2; /* X5 past the last one, X7 */
  }
  steps++; /* X8 */
}

static void search(void) {
  active_words = (primary_count + WORD - 1) / WORD;
  parts = zeros((primary_count + 1) * words, sizeof *parts);
  counts = zeros(primary_count + 1, sizeof *counts);
  active = zeros((primary_count + 1) * active_words, sizeof *active);
  path = zeros(primary_count + 1, sizeof *path);
  levels = zeros(primary_count + 1, sizeof *levels);
  for (uint32_t o = 0; o < option_count; o++) parts[o / WORD].word |= 1ull << o % WORD;
  for (size_t at = 0; at < words; at++) parts[at].place = (uint32_t)at;
  counts[0] = (uint32_t)words;
  for (uint32_t i = 0; i < primary_count; i++) active[i / WORD] |= 1ull << i % WORD;
  steps = 1; /* X1 */
  enter(0);
  put_totals(visits, steps, levels, deepest);
}

#endif

/* Reading. A name has at most eight bytes, so it is its own hash key. */

enum { NAME_SLOTS = 1 << 18 };
static uint64_t slot_name[NAME_SLOTS];
static uint32_t slot_item[NAME_SLOTS];

static uint32_t *slot_of(const char *name) {
  uint64_t key = 0;
  size_t length = strlen(name);
  if (length > 8) fail("a name is too long");
  memcpy(&key, name, length);
  size_t slot = (key * 0x9E3779B97F4A7C15u) >> 46;
  while (slot_name[slot] && slot_name[slot] != key) slot = (slot + 1) % NAME_SLOTS;
  slot_name[slot] = key;
  return &slot_item[slot];
}

static void name_item(const char *name) {
  uint32_t *item = slot_of(name);
  if (*item) fail("an item is named twice");
  *item = add_item();
}

static void name_in_option(const char *name) {
  uint32_t item = *slot_of(name);
  if (!item) fail("an option names no item");
  add_to_option(item);
}

static void read_line(char *line) {
  static enum { START, ITEMS, MAYBE, OPTIONS } part;
  char *comment = strchr(line, '#');
  if (comment) *comment = 0;
  char *word = strtok(line, " \t\r\n");
  if (!word) return;
  void (*add)(const char *) = name_item;
  uint32_t begun = 0;
  if (!strcmp(word, "items") && part == START) {
    part = ITEMS;
    begin_items();
  } else if (!strcmp(word, "maybe") && part == ITEMS) {
    part = MAYBE;
  } else if (!strcmp(word, "option") && part != START) {
    if (part != OPTIONS) begin_options();
    part = OPTIONS;
    begun = begin_option();
    add = name_in_option;
  } else {
    fail("a line is bad");
  }
  while ((word = strtok(NULL, " \t\r\n"))) add(word);
  if (part == ITEMS) primary_count = item_count;
  if (part == OPTIONS) end_option(begun);
}

static void read_text(void) {
  char *line = NULL;
  size_t room = 0;
  while (getline(&line, &room, stdin) > 0) read_line(line);
  free(line);
  if (!item_count) fail("there are no items");
  end_text();
}

int main(int count, char **arguments) {
  if (count > 1) most_steps = strtoull(arguments[1], NULL, 10);
  read_text();
  search();
  return 0;
}
