/* A shell: commands of the program, which a line names. */
#ifndef SHELL_H_
#define SHELL_H_

#include <stdio.h>
#include <string.h>

#include "sys/pt.h"

/* Writes a text for the one who gave the command. */
typedef void (*shell_output_func)(const char *str);

/* Writes as printf, at most 127 bytes. */
#define SHELL_OUTPUT(output_func, ...)                                  \
  do {                                                                  \
    char shell_output_text[128];                                        \
    snprintf(shell_output_text, sizeof shell_output_text, __VA_ARGS__); \
    (output_func)(shell_output_text);                                   \
  } while(0)

/* A command's arguments, one after the other: args is NULL after the last one. */
#define SHELL_ARGS_INIT(args, next_args) (next_args) = (args)
#define SHELL_ARGS_NEXT(args, next_args) (args) = shell_cut_argument(&(next_args))
char *shell_cut_argument(char **rest);

/* A command is a protothread. Its arguments are the line after its name, or an empty text. */
struct shell_command_t {
  const char *name;
  char (*func)(struct pt *pt, shell_output_func output, char *args);
  const char *help;
};

/* Commands, up to one whose name is NULL. */
struct shell_command_set_t {
  struct shell_command_set_t *next;
  const struct shell_command_t *const commands;
};

/* Adds commands, before those that are there. */
void shell_command_set_register(struct shell_command_set_t *set);

/* Removes them: 0, or 1 if they weren't there. */
int shell_command_set_deregister(struct shell_command_set_t *set);

/* The command of this name, or NULL. */
const struct shell_command_t *shell_command_lookup(const char *name);

/* Executes a line: a protothread that ends with its command. */
PT_THREAD(shell_input(struct pt *pt, shell_output_func output, const char *cmd));

/* Writes the mote's address and `> `. */
void shell_prompt(shell_output_func output);

/* Adds the shell's own command, `help`. */
void shell_init(void);

#endif
