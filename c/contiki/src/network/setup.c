/* The first file of a network: its motes and links, as in docs/network.md. The words of a mote's line are the sources of its program. */
#include "network.h"

#include <stdlib.h>

enum { MOST_MOTES = UINT16_MAX, MOST_CHANCE = 65536 };

static const char AS_NUMBER[] = "malformed: as `room 8` or `rounds 900`";
static const char AS_SHAPE[] = "malformed: as `line 1..3 delay 2` or `grid 1..6 width 3 delay 2`; a ring has at least three motes";
static const char AS_LINK[] = "malformed: as `link 1 2 delay 3`, `link 1 2 delay 3 every 2` or `link 1 2 delay 3 lot 655 seed 1`";
static const char NO_SUCH_MOTE[] = "malformed: there is no such mote";

/* Motes whose numbers follow one another. */
struct span {
  uint32_t first, last;
};

/* Delay and losses of the links of a line. With `lot`, each further link has the next seed. */
struct carriage {
  uint32_t delay, loss, number;
  uint64_t seed;
};

/* Words. */

char *
cut_word(char **text)
{
  char *word = *text, *space = word == NULL ? NULL : strchr(word, ' ');
  *text = space == NULL ? NULL : space + 1;
  if(space != NULL) {
    *space = '\0';
  }
  return word;
}

bool
read_number(const char *text, uint32_t *number)
{
  uint64_t value = 0;
  if(text == NULL || *text == '\0' || (*text == '0' && text[1] != '\0')) {
    return false;
  }
  for(; *text >= '0' && *text <= '9' && value <= UINT32_MAX; text++) {
    value = 10 * value + (uint64_t)(*text - '0');
  }
  *number = (uint32_t)value;
  return *text == '\0' && value <= UINT32_MAX;
}

/* Whether the next word is this one, which is cut off. */
static bool
takes_word(char **text, const char *expected)
{
  const char *word = cut_word(text);
  return word != NULL && strcmp(word, expected) == 0;
}

static bool
takes_number(char **text, uint32_t *number)
{
  return read_number(cut_word(text), number);
}

/* N, or N..M. */
static bool
takes_span(char **text, struct span *span)
{
  char *word = cut_word(text), *dots = word == NULL ? NULL : strstr(word, "..");
  bool has_both = dots == NULL;
  if(dots != NULL) {
    *dots = '\0';
    has_both = read_number(dots + 2, &span->last);
  }
  if(!read_number(word, &span->first) || !has_both) {
    return false;
  }
  if(dots == NULL) {
    span->last = span->first;
  }
  return span->first >= 1 && span->first <= span->last;
}

/* Motes. */

/* The size that an option sets, or NULL. */
static uint32_t *
size_of(struct toarmuts_configuration *configuration, const char *option)
{
  return strcmp(option, "--mmem") == 0     ? &configuration->mmem
         : strcmp(option, "--heap") == 0   ? &configuration->heap
         : strcmp(option, "--header") == 0 ? &configuration->header
         : strcmp(option, "--quota") == 0  ? &configuration->quota
                                           : NULL;
}

/* Reads an option and its number; NULL, or why it is malformed. */
static const char *
take_size(struct toarmuts_configuration *configuration, const char *option, const char *value)
{
  uint32_t *size = size_of(configuration, option);
  if(size == NULL || !read_number(value, size)) {
    return "malformed: options are --mmem N, --heap N, --quota N and --header N";
  }
  configuration->has_quota |= size == &configuration->quota;
  return NULL;
}

/* Reads the words of a mote's line: sizes, and the sources, which are joined by spaces. */
static const char *
take_mote_words(struct toarmuts_configuration *configuration, char *sources, char **text)
{
  const char *word, *why = NULL;
  while(why == NULL && (word = cut_word(text)) != NULL) {
    if(*word == '\0') {
      why = "malformed: one space separates words";
    } else if(strncmp(word, "--", 2) == 0) {
      why = take_size(configuration, word, cut_word(text));
    } else {
      strcat(strcat(sources, *sources == '\0' ? "" : " "), word);
    }
  }
  return why;
}

/* Whether a mote with no processes can boot with these sizes. */
static bool
are_sizes(const struct toarmuts_configuration *configuration)
{
  struct toarmuts_mote mote = {0};
  bool is_bad = toarmuts_open(configuration, 0, &mote) == TOARMUTS_BAD_SIZES;
  toarmuts_close(&mote);
  return !is_bad;
}

static void
add_motes(struct network_setup *setup, uint32_t count, const struct toarmuts_network_mote *mote, const char *sources, uint64_t line)
{
  size_t all = setup->mote_count + count;
  setup->motes = take_room(setup->motes, all, sizeof *setup->motes);
  setup->programs = take_room(setup->programs, all, sizeof *setup->programs);
  setup->lines = take_room(setup->lines, all, sizeof *setup->lines);
  for(; setup->mote_count < all; setup->mote_count++) {
    setup->motes[setup->mote_count] = *mote;
    setup->programs[setup->mote_count] = sources;
    setup->lines[setup->mote_count] = line;
  }
}

/* `mote N WORD..` or `mote N..M WORD..` */
static const char *
take_motes(struct network_setup *setup, uint64_t number, char **text)
{
  struct toarmuts_network_mote mote = {.configuration = TOARMUTS_DEFAULTS};
  struct span span;
  char sources[LINE_LIMIT + 1] = "";
  const char *why;
  if(!takes_span(text, &span) || span.first != setup->mote_count + 1) {
    return "malformed: as `mote 3 client.c` or `mote 3..5 client.c`, where the last mote before was 2";
  }
  if(span.last > MOST_MOTES) {
    return "malformed: a network of programs in C has at most 65,535 motes";
  }
  why = take_mote_words(&mote.configuration, sources, text);
  if(why == NULL && !is_program(sources)) {
    why = "malformed: a mote's words are the names of sources among the arguments, as `client.c`";
  }
  if(why == NULL && !are_sizes(&mote.configuration)) {
    why = NO_SIZES;
  }
  if(why == NULL) {
    char *kept = take_room(NULL, strlen(sources) + 1, 1);
    add_motes(setup, span.last - span.first + 1, &mote, strcpy(kept, sources), number);
  }
  return why;
}

/* Links. */

/* The rule for losses: none, `every N`, or `lot N seed N`. */
static bool
takes_loss(char **text, struct carriage *carriage)
{
  const char *word = cut_word(text);
  uint32_t seed;
  if(word == NULL) {
    carriage->loss = TOARMUTS_LOSS_NONE;
    return true;
  }
  if(!takes_number(text, &carriage->number)) {
    return false;
  }
  if(strcmp(word, "every") == 0) {
    carriage->loss = TOARMUTS_LOSS_EVERY;
    return carriage->number > 0 && *text == NULL;
  }
  if(strcmp(word, "lot") != 0 || carriage->number > MOST_CHANCE || !takes_word(text, "seed") || !takes_number(text, &seed)) {
    return false;
  }
  carriage->loss = TOARMUTS_LOSS_LOT;
  carriage->seed = seed;
  return *text == NULL;
}

/* `delay N`, and the rule for losses, up to the end of the line. */
static bool
takes_carriage(char **text, struct carriage *carriage)
{
  *carriage = (struct carriage){.delay = 0};
  return takes_word(text, "delay") && takes_number(text, &carriage->delay) && carriage->delay > 0 && takes_loss(text, carriage);
}

static void
add_link(struct network_setup *setup, uint32_t from, uint32_t to, struct carriage *carriage)
{
  if(setup->link_count == setup->link_room) {
    setup->link_room = setup->link_room == 0 ? 64 : 2 * setup->link_room;
    setup->links = take_room(setup->links, setup->link_room, sizeof *setup->links);
  }
  setup->links[setup->link_count++] = (struct toarmuts_link){from, to, carriage->delay, carriage->loss, carriage->number, carriage->seed};
  carriage->seed += carriage->loss == TOARMUTS_LOSS_LOT;
}

static void
add_pair(struct network_setup *setup, uint32_t a, uint32_t b, struct carriage *carriage)
{
  add_link(setup, a, b, carriage);
  add_link(setup, b, a, carriage);
}

/* `link N N delay N ..` */
static const char *
take_link(struct network_setup *setup, char **text)
{
  struct carriage carriage;
  uint32_t from, to;
  if(!takes_number(text, &from) || !takes_number(text, &to) || !takes_carriage(text, &carriage)) {
    return AS_LINK;
  }
  if(from == 0 || from > setup->mote_count || to == 0 || to > setup->mote_count) {
    return NO_SUCH_MOTE;
  }
  add_link(setup, from, to, &carriage);
  return NULL;
}

static void
add_line(struct network_setup *setup, struct span span, struct carriage *carriage)
{
  for(uint32_t a = span.first; a < span.last; a++) {
    add_pair(setup, a, a + 1, carriage);
  }
}

static void
add_ring(struct network_setup *setup, struct span span, struct carriage *carriage)
{
  add_line(setup, span, carriage);
  add_pair(setup, span.last, span.first, carriage);
}

/* Links a mote and each one after it. */
static void
add_pairs(struct network_setup *setup, uint32_t a, uint32_t last, struct carriage *carriage)
{
  for(uint32_t b = a + 1; b <= last; b++) {
    add_pair(setup, a, b, carriage);
  }
}

static void
add_mesh(struct network_setup *setup, struct span span, struct carriage *carriage)
{
  for(uint32_t a = span.first; a < span.last; a++) {
    add_pairs(setup, a, span.last, carriage);
  }
}

/* Rows of `width` motes, with links between neighbours. */
static void
add_grid(struct network_setup *setup, struct span span, uint32_t width, struct carriage *carriage)
{
  for(uint32_t a = span.first; a <= span.last; a++) {
    if((a - span.first) % width != width - 1 && a < span.last) {
      add_pair(setup, a, a + 1, carriage);
    }
    if(width <= span.last - a) {
      add_pair(setup, a, a + width, carriage);
    }
  }
}

/* `line`, `ring`, `mesh` and `grid` of these motes, which are linked both ways. */
static const char *
take_shape(struct network_setup *setup, const char *shape, char **text)
{
  bool is_grid = strcmp(shape, "grid") == 0, is_ring = strcmp(shape, "ring") == 0;
  struct carriage carriage;
  struct span span;
  uint32_t width = 0;
  if(!takes_span(text, &span) || (is_grid && !(takes_word(text, "width") && takes_number(text, &width) && width > 0)) ||
     !takes_carriage(text, &carriage) || (is_ring && span.last - span.first < 2)) {
    return AS_SHAPE;
  }
  if(span.last > setup->mote_count) {
    return NO_SUCH_MOTE;
  }
  if(is_grid) {
    add_grid(setup, span, width, &carriage);
  } else if(is_ring) {
    add_ring(setup, span, &carriage);
  } else if(strcmp(shape, "line") == 0) {
    add_line(setup, span, &carriage);
  } else {
    add_mesh(setup, span, &carriage);
  }
  return NULL;
}

/* `room N` or `rounds N` */
static const char *
take_number(char **text, uint32_t *number)
{
  return takes_number(text, number) && *text == NULL ? NULL : AS_NUMBER;
}

static bool
is_shape(const char *word)
{
  return strcmp(word, "line") == 0 || strcmp(word, "ring") == 0 || strcmp(word, "mesh") == 0 || strcmp(word, "grid") == 0;
}

const char *
take_setup_line(struct network_setup *setup, uint64_t number, char *line)
{
  char *rest = line;
  const char *word, *why;
  uint32_t rounds = 0;
  if(*line == '\0' || *line == '#') {
    return NULL;
  }
  word = cut_word(&rest);
  if(strcmp(word, "mote") == 0) {
    return take_motes(setup, number, &rest);
  }
  if(strcmp(word, "link") == 0) {
    return take_link(setup, &rest);
  }
  if(is_shape(word)) {
    return take_shape(setup, word, &rest);
  }
  if(strcmp(word, "room") == 0) {
    return take_number(&rest, &setup->sizes.room);
  }
  if(strcmp(word, "rounds") == 0) {
    why = take_number(&rest, &rounds);
    setup->sizes.rounds = rounds;
    return why;
  }
  return "malformed: it sets up motes, links, line, ring, mesh, grid, room or rounds; inputs are in the script";
}
