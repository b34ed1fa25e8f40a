/*
 * A transcript's table. Each line is looked at once, and no byte of it is copied.
 */
#include "transcript_table.h"

#include <string.h>

#define PROCESSES 20
#define ORIGIN_ANSWER 4
#define REPLY_REFUSED 1
#define REPLY_FLAG 4

/* Words of a line that are not read yet. */
struct words {
  const uint8_t *next;
  const uint8_t *end;
};

/* The last turn of each process: 1 + its row. */
struct walk {
  uint64_t clock;
  uint64_t last[PROCESSES];
};

/* Takes a word, if it is the next one, and a space or the line's end follows. */
static int
take(struct words *words, const char *word)
{
  size_t left = (size_t)(words->end - words->next);
  size_t length;

  if(left == 0 || *words->next != (uint8_t)*word) {
    return 0;
  }
  length = strlen(word);
  if(left < length || memcmp(words->next, word, length) != 0) {
    return 0;
  }
  if(left == length) {
    words->next += length;
    return 1;
  }
  if(words->next[length] != ' ') {
    return 0;
  }
  words->next += length + 1;
  return 1;
}

/* Takes a number of at most 20 digits and the space after it. */
static int
take_number(struct words *words, uint64_t *number)
{
  const uint8_t *begin = words->next;
  uint64_t value = 0;

  while(words->next < words->end && *words->next >= '0' && *words->next <= '9') {
    value = 10 * value + (uint64_t)(*words->next++ - '0');
  }
  if(words->next == begin || words->next - begin > 20) {
    return 0;
  }
  if(words->next < words->end) {
    if(*words->next != ' ') {
      return 0;
    }
    words->next++;
  }
  *number = value;
  return 1;
}

/* The position of the next word in a list; the number of words where it isn't one of them. */
static uint8_t
take_one_of(struct words *words, const char *const *list, uint8_t count)
{
  uint8_t place = 0;

  while(place < count && !take(words, list[place])) {
    place++;
  }
  return place;
}

/* Compares a word that ends at a space or at the line's end with another one in alphabetical order. */
static int
order_of(const uint8_t *word, size_t length, const struct call_word *other)
{
  int order = memcmp(word, other->word, length < other->length ? length : other->length);

  return order != 0 ? order : (int)length - (int)other->length;
}

/* The number of the call whose word comes next; 0 where there is none. */
static uint8_t
kind_of_call(const struct words *words)
{
  size_t left = (size_t)(words->end - words->next);
  const uint8_t *space = memchr(words->next, ' ', left);
  size_t length = space != NULL ? (size_t)(space - words->next) : left;
  size_t low = 0;
  size_t high = call_words_count;

  while(low < high) {
    size_t middle = low + (high - low) / 2;
    int order = order_of(words->next, length, &call_words[middle]);

    if(order == 0) {
      return call_words[middle].kind;
    }
    if(order < 0) {
      high = middle;
    } else {
      low = middle + 1;
    }
  }
  return 0;
}

/* The content of a reply, and the call that it is for. */
static int
read_answer(struct words *words, struct transcript_row *row)
{
  static const char *const replies[] = {"done", "refused", "num", "wide", "flag", "bytes", "stats"};
  uint64_t number;

  row->reply = take_one_of(words, replies, 7);
  if(row->reply == REPLY_REFUSED) {
    if(!take_number(words, &number) || number > 255) {
      return 0;
    }
    row->refusal = (uint8_t)number;
  } else if(row->reply == REPLY_FLAG) {
    row->refusal = words->next < words->end && *words->next == 't';
  }
  return row->reply < 7;
}

/* Where the call's words begin: after the arrow. No other word has a '>'. */
static const uint8_t *
behind_arrow(const struct words *words)
{
  const uint8_t *point = memchr(words->next, '>', (size_t)(words->end - words->next));

  if(point == NULL || point - words->next < 2 || words->end - point < 3 || memcmp(point - 2, " -> ", 4) != 0) {
    return NULL;
  }
  return point + 2;
}

static int
read_turn(struct words *words, struct transcript_row *row, const uint8_t *line)
{
  static const char *const origins[] = {"event", "synch", "poll", "callback", "answer"};
  const uint8_t *call = behind_arrow(words);
  struct words stimulus = {words->next, words->end};
  uint64_t number;

  if(call == NULL || !take_number(&stimulus, &number) || number >= PROCESSES) {
    return 0;
  }
  row->process = (uint8_t)number;
  row->detail = take_one_of(&stimulus, origins, 5);
  row->content = (uint32_t)(stimulus.next - line);
  row->call = (uint32_t)(call - line);
  words->next = call;
  row->call_kind = kind_of_call(words);
  if(row->detail > ORIGIN_ANSWER || row->call_kind == 0) {
    return 0;
  }
  if(row->detail == ORIGIN_ANSWER) {
    return read_answer(&stimulus, row);
  }
  if(!take_number(&stimulus, &number) || number > 255) {
    return 0;
  }
  row->event = (uint8_t)number;
  return 1;
}

static int
read_input(struct words *words, struct transcript_row *row, const uint8_t *line, struct walk *walk)
{
  static const char *const inputs[] = {"tick", "serial", "frame"};
  uint64_t ticks;

  row->detail = take_one_of(words, inputs, 3);
  row->content = (uint32_t)(words->next - line);
  if(row->detail == 0) {
    if(!take_number(words, &ticks)) {
      return 0;
    }
    walk->clock += ticks;
    row->clock = walk->clock;
  }
  return row->detail < 3;
}

static int
read_note(struct words *words, struct transcript_row *row, const uint8_t *line)
{
  static const char *const notes[] = {"lost", "sent"};
  uint64_t number = 0;

  row->detail = take_one_of(words, notes, 2);
  row->content = (uint32_t)(words->next - line);
  if(row->detail == 0) {
    if(!take_number(words, &number) || number > 255) {
      return 0;
    }
    row->refusal = (uint8_t)number;
  }
  return row->detail < 2;
}

/* Reads a line. */
static void
read_line(struct words words, struct transcript_row *row, struct walk *walk)
{
  const uint8_t *line = words.next;
  int has_form;

  if(take(&words, ">")) {
    row->kind = TRANSCRIPT_INPUT;
    has_form = read_input(&words, row, line, walk);
  } else if(take(&words, "note")) {
    row->kind = TRANSCRIPT_NOTE;
    has_form = read_note(&words, row, line);
  } else if(take(&words, "halt")) {
    row->kind = TRANSCRIPT_HALT;
    has_form = words.next == words.end;
  } else if(take(&words, "bad")) {
    row->kind = TRANSCRIPT_BAD_LINE;
    has_form = take(&words, "line");
    row->content = (uint32_t)(words.next - line);
  } else if(take(&words, "too")) {
    row->kind = TRANSCRIPT_TOO_LONG;
    has_form = take(&words, "long");
  } else {
    row->kind = TRANSCRIPT_TURN;
    has_form = read_turn(&words, row, line);
  }
  if(!has_form) {
    row->kind = TRANSCRIPT_NO_FORM;
  }
}

/* Joins an answer to the last call of its process. */
static void
join(struct transcript_row *rows, size_t count, struct walk *walk)
{
  struct transcript_row *row = &rows[count];
  uint64_t last = walk->last[row->process];

  if(row->detail == ORIGIN_ANSWER && last != 0) {
    row->asked = last;
    row->asked_kind = rows[last - 1].call_kind;
    rows[last - 1].answer = count + 1;
  }
  walk->last[row->process] = count + 1;
}

size_t
transcript_lines(const uint8_t *text, size_t length)
{
  size_t count = 0;
  size_t i;

  for(i = 0; i < length; i++) {
    count += text[i] == '\n';
  }
  return count + (length != 0 && text[length - 1] != '\n');
}

size_t
transcript_table(const uint8_t *text, size_t length, struct transcript_row *rows)
{
  struct walk walk = {0};
  const uint8_t *next = text;
  const uint8_t *end = text + length;
  size_t count = 0;

  while(next < end) {
    const uint8_t *stop = memchr(next, '\n', (size_t)(end - next));
    struct words words = {next, stop != NULL ? stop : end};
    struct transcript_row *row = &rows[count];

    memset(row, 0, sizeof *row);
    row->begin = (uint64_t)(next - text);
    row->length = (uint32_t)(words.end - next);
    row->clock = walk.clock;
    read_line(words, row, &walk);
    if(row->kind == TRANSCRIPT_TURN) {
      join(rows, count, &walk);
    }
    count++;
    next = stop != NULL ? stop + 1 : end;
  }
  return count;
}
