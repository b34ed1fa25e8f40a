/*
 * The process of the stack. It starts before those of the program (processes.c), receives all frames, and has the timers of RPL. What a
 * program asks of the stack in another process is done there at once, if it needs no timer and no block, or when this process is polled.
 */
#include "stack.h"

#include "rpl.h"

const bool mote_radio_has_one_user = true;

PROCESS(tcpip_process, "TCP/IP stack");

PROCESS_THREAD(tcpip_process, ev, data)
{
  PROCESS_POLLHANDLER(work_rpl(); work_mac());
  PROCESS_BEGIN();
  mote_radio_use_2015();
  start_mac();
  start_addresses();
  start_udp_events();
  mote_radio_set_callback(hear_frame);
  start_rpl();
  while(1) {
    PROCESS_WAIT_EVENT();
    if(ev == PROCESS_EVENT_EXITED) {
      remove_conns_of(data);
    }
  }
  PROCESS_END();
}
