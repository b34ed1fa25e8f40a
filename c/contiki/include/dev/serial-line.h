/* Lines from the serial line: all processes receive an event with each line as data, a text without its end. */
#ifndef SERIAL_LINE_H_
#define SERIAL_LINE_H_

#include "sys/process.h"

/* It keeps its value, 138. */
extern process_event_t serial_line_event_message;

CC_REFUSED("the serial line is ready from the start: leave this call out") void serial_line_init(void);
CC_REFUSED("the script has the bytes: serial HEX") int serial_line_input_byte(unsigned char c);

#endif
