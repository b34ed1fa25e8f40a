/* shell.h and serial-shell.h */
#include "services/shell/serial-shell.h"

#include "contiki.h"
#include "net/linkaddr.h"

static struct shell_command_set_t *sets;

PROCESS(serial_shell_process, "Shell");

char *
shell_cut_argument(char **rest)
{
  char *argument = *rest, *space;
  if(argument == NULL || *argument == '\0') {
    *rest = NULL;
    return NULL;
  }
  space = strchr(argument, ' ');
  *rest = space == NULL ? NULL : space + 1;
  if(space != NULL) {
    *space = '\0';
  }
  return argument;
}

int
shell_command_set_deregister(struct shell_command_set_t *set)
{
  struct shell_command_set_t **place = &sets;
  while(*place != NULL && *place != set) {
    place = &(*place)->next;
  }
  if(*place == NULL) {
    return 1;
  }
  *place = set->next;
  return 0;
}

void
shell_command_set_register(struct shell_command_set_t *set)
{
  shell_command_set_deregister(set);
  set->next = sets;
  sets = set;
}

static const struct shell_command_t *
find_in(const struct shell_command_set_t *set, const char *name)
{
  const struct shell_command_t *command = set->commands;
  while(command->name != NULL && strcmp(command->name, name) != 0) {
    command++;
  }
  return command->name == NULL ? NULL : command;
}

const struct shell_command_t *
shell_command_lookup(const char *name)
{
  const struct shell_command_t *command = NULL;
  for(const struct shell_command_set_t *set = sets; set != NULL && command == NULL; set = set->next) {
    command = find_in(set, name);
  }
  return command;
}

static void
show_help(shell_output_func output, const struct shell_command_t *command)
{
  for(; command->name != NULL; command++) {
    SHELL_OUTPUT(output, "%s\n", command->help);
  }
}

static PT_THREAD(help(struct pt *pt, shell_output_func output, CC_UNUSED char *args))
{
  PT_BEGIN(pt);
  SHELL_OUTPUT(output, "Available commands:\n");
  for(const struct shell_command_set_t *set = sets; set != NULL; set = set->next) {
    show_help(output, set->commands);
  }
  PT_END(pt);
}

static const struct shell_command_t own_commands[] = {{"help", help, "'> help': lists the commands"}, {NULL, NULL, NULL}};
static struct shell_command_set_t own_set = {NULL, own_commands};

void
shell_init(void)
{
  shell_command_set_register(&own_set);
}

void
shell_prompt(shell_output_func output)
{
  const unsigned char *a = linkaddr_node_addr.u8;
  SHELL_OUTPUT(output, "#%02x%02x.%02x%02x.%02x%02x.%02x%02x> ", a[0], a[1], a[2], a[3], a[4], a[5], a[6], a[7]);
}

PT_THREAD(shell_input(struct pt *pt, shell_output_func output, const char *cmd))
{
  static char line[128];
  static struct pt command_pt;
  static const struct shell_command_t *command;
  static char *args;
  char *name;

  PT_BEGIN(pt);

  strncpy(line, cmd, sizeof line - 1);
  args = line;
  name = shell_cut_argument(&args);
  command = name == NULL ? NULL : shell_command_lookup(name);
  if(args == NULL) {
    args = line + strlen(line);
  }
  if(command != NULL) {
    PT_SPAWN(pt, &command_pt, command->func(&command_pt, output, args));
  } else if(name != NULL) {
    SHELL_OUTPUT(output, "Command not found: %s. Type 'help' for a list of commands\n", name);
  }

  PT_END(pt);
}

static void
print(const char *str)
{
  printf("%s", str);
}

void
serial_shell_init(void)
{
  process_start(&serial_shell_process, NULL);
}

PROCESS_THREAD(serial_shell_process, ev, data)
{
  static struct pt input_pt;

  PROCESS_BEGIN();

  shell_init();
  while(1) {
    shell_prompt(print);
    PROCESS_WAIT_EVENT_UNTIL(ev == serial_line_event_message && data != NULL);
    PROCESS_PT_SPAWN(&input_pt, shell_input(&input_pt, print, data));
  }

  PROCESS_END();
}
