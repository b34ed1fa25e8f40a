/* Runs the programs of a network's motes with a script, and writes the transcript. The command `contiki` compiles the programs. */
#define _XOPEN_SOURCE 700
#include "network.h"

#include <errno.h>
#include <unistd.h>

enum { MOST_SERIAL = 256, MOST_FRAME = 127 };

struct words {
  const char *setup;  /* the first file */
  const char *copies; /* a folder for copies of the programs, or NULL */
  const char *script; /* the script's name, or NULL for standard input */
  bool is_quiet, is_text;
  bool is_check; /* only the first file is read */
  uint32_t only; /* the mote whose lines alone are shown, or 0 */
};

static const char *setup_name;

/* Arguments. The command has checked them. */

static struct words
read_words(char **word)
{
  struct words words = {.setup = NULL};
  for(; *word != NULL; word++) {
    if(strcmp(*word, "--program") == 0) {
      add_program(word[1], word[2]);
      word += 2;
    } else if(strcmp(*word, "--copies") == 0) {
      words.copies = *++word;
    } else if(strcmp(*word, "--only") == 0) {
      if(!read_number(*++word, &words.only) || words.only == 0) {
        give_up(STATUS_BAD_WORDS, "--only needs the number of a mote");
      }
    } else if(strcmp(*word, "--check") == 0) {
      words.is_check = true;
    } else if(strcmp(*word, "--quiet") == 0) {
      words.is_quiet = true;
    } else if(strcmp(*word, "--text") == 0) {
      words.is_text = true;
    } else if(words.setup == NULL) {
      words.setup = *word;
    } else {
      words.script = *word;
    }
  }
  return words;
}

/* The first file. */

void
end_at_bad_setup(uint64_t number, const char *why)
{
  char text[40];
  snprintf(text, sizeof text, "bad line %" PRIu64 "\n", number);
  show_text(text);
  flush_transcript();
  fprintf(stderr, "contiki: line %" PRIu64 " of %s is %s\n", number, setup_name, why);
  finish(STATUS_BAD_LINE);
}

/* Reads a line into its buffer, without its end; false at the end of the file. If a line is too long, the length is above the limit. */
static bool
read_setup_line(FILE *file, char *line, size_t *length)
{
  int c = EOF;
  *length = 0;
  while(*length <= LINE_LIMIT && (c = getc(file)) != EOF && c != '\n') {
    line[(*length)++] = (char)c;
  }
  line[*length] = '\0';
  return *length > 0 || c == '\n';
}

/* The bytes of the character of UTF-8 that begins there, or 0 if none does: no surrogate, none beyond 10FFFF, none in more bytes than it
 * needs. */
static size_t
character_length(const unsigned char *text)
{
  unsigned char first = text[0],
                least = first == 0xe0   ? 0xa0
                        : first == 0xf0 ? 0x90
                                        : 0x80,
                most = first == 0xed   ? 0x9f
                       : first == 0xf4 ? 0x8f
                                       : 0xbf;
  size_t length = first < 0x80 ? 1 : first < 0xc2 ? 0 : first < 0xe0 ? 2 : first < 0xf0 ? 3 : first < 0xf5 ? 4 : 0;
  if(length > 1 && (text[1] < least || text[1] > most)) {
    return 0;
  }
  for(size_t i = 2; i < length; i++) {
    if((text[i] & 0xc0) != 0x80) {
      return 0;
    }
  }
  return length;
}

/* Whether a text is UTF-8. It ends with a byte 0, which no character has in it. */
static bool
is_utf8(const char *text)
{
  size_t length = 1;
  while(*text != '\0' && length > 0) {
    length = character_length((const unsigned char *)text);
    text += length;
  }
  return length > 0;
}

/* Reads a line; NULL, or why it is malformed. */
static const char *
take_line(struct network_setup *setup, uint64_t number, char *line, size_t length)
{
  bool is_marked = number == 1 && strncmp(line, "\xef\xbb\xbf", 3) == 0, is_of_windows = length > 0 && line[length - 1] == '\r';
  const char *why;
  if(length > LINE_LIMIT) {
    return "malformed: it has more than 1,024 bytes";
  }
  if(strlen(line) != length && *line != '#') {
    return "malformed: it has a byte 0";
  }
  if(!is_utf8(line)) {
    return "malformed: it isn't UTF-8";
  }
  why = take_setup_line(setup, number, line);
  return why == NULL     ? NULL
         : is_marked     ? "malformed: it begins with a byte order mark: save the file without one"
         : is_of_windows ? "malformed: it ends with byte 13, as on Windows: save the file with line ends of byte 10 alone"
                         : why;
}

static void
read_setup(struct network_setup *setup, const char *name)
{
  FILE *file = fopen(name, "r");
  char line[LINE_LIMIT + 2];
  size_t length;
  setup_name = name;
  if(file == NULL) {
    give_up(STATUS_BAD_WORDS, "%s: %s", name, strerror(errno));
  }
  for(uint64_t number = 1; read_setup_line(file, line, &length); number++) {
    const char *why = take_line(setup, number, line, length);
    if(why != NULL) {
      end_at_bad_setup(number, why);
    }
  }
  if(ferror(file)) {
    give_up(STATUS_READ_FAILED, "%s can't be read", name);
  }
  fclose(file);
}

/* Inputs. */

static int
digit_of(char c)
{
  return c >= '0' && c <= '9' ? c - '0' : c >= 'a' && c <= 'f' ? c - 'a' + 10 : c >= 'A' && c <= 'F' ? c - 'A' + 10 : -1;
}

/* Reads bytes of two digits each. Returns their number, or 0 if there are too many or none. */
static size_t
read_bytes(const char *text, uint8_t *bytes, size_t most)
{
  size_t digits = text == NULL ? 0 : strlen(text);
  if(digits % 2 != 0 || digits > 2 * most) {
    return 0;
  }
  for(size_t i = 0; i < digits; i += 2) {
    int high = digit_of(text[i]), low = digit_of(text[i + 1]);
    if(high < 0 || low < 0) {
      return 0;
    }
    bytes[i / 2] = (uint8_t)(16 * high + low);
  }
  return digits / 2;
}

/* `serial HEX` or `frame HEX`, for a mote; false if it is neither. */
static bool
take_mote_input(uint32_t mote, char *text)
{
  const char *word = cut_word(&text);
  uint8_t bytes[MOST_SERIAL];
  bool is_frame = word != NULL && strcmp(word, "frame") == 0;
  size_t length = read_bytes(text, bytes, is_frame ? MOST_FRAME : MOST_SERIAL);
  if(length == 0 || (!is_frame && strcmp(word, "serial") != 0)) {
    return false;
  }
  feed_mote(mote, is_frame ? TOARMUTS_FRAME : TOARMUTS_SERIAL, bytes, length);
  return true;
}

/* Submits the input of a line; false if it is malformed. */
static bool
take_input(char *line, size_t motes)
{
  char *rest = line;
  const char *word;
  uint32_t number;
  if(*line == '\0' || *line == '#') {
    return true;
  }
  word = cut_word(&rest);
  if(strcmp(word, "tick") == 0) {
    if(!read_number(rest, &number)) {
      return false;
    }
    tick_network(number);
    return true;
  }
  return read_number(word, &number) && number >= 1 && number <= motes && take_mote_input(number, rest);
}

static void
run_script(int script, size_t motes)
{
  const char *line;
  char copy[LINE_LIMIT + 2];
  size_t length;
  enum reading reading;
  run_network();
  for(uint64_t number = 1; (reading = read_line(script, &line, &length)) == READ_LINE; number++) {
    memcpy(copy, line, length);
    copy[length] = '\0';
    if(length > LINE_LIMIT || (strlen(copy) != length && *copy != '#') || !take_input(copy, motes)) {
      end_at_bad_line(number, line, length, "tick N, N serial HEX and N frame HEX, where N is a mote");
    }
    run_network();
  }
  if(reading == READ_TOO_MUCH) {
    show_text("too long\n");
    finish(STATUS_TOO_LONG);
  }
}

int
main(int count, char **word)
{
  static struct network_setup setup = {.sizes = TOARMUTS_NETWORK_DEFAULTS};
  struct words words = read_words(word + (count > 0));
  int script = STDIN_FILENO;
  begin_transcript(words.is_quiet, words.is_text);
  show_only(words.only);
  read_setup(&setup, words.setup);
  if(words.only > setup.mote_count) {
    give_up(STATUS_BAD_WORDS, "no mote %u", words.only);
  }
  if(words.is_check) {
    return STATUS_FINISHED;
  }
  if(words.script != NULL) {
    FILE *file = fopen(words.script, "r");
    if(file == NULL) {
      give_up(STATUS_READ_FAILED, "%s: no such file", words.script);
    }
    script = fileno(file);
  }
  watch_for_faults();
  setup.sizes.links = (uint32_t)setup.link_count;
  make_motes(&setup, words.copies, __builtin_frame_address(0));
  open_network(&setup);
  open_console();
  run_script(script, setup.mote_count);
  finish(STATUS_FINISHED);
}
