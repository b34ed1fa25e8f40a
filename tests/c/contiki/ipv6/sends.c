/* Each line of the serial line is a packet to send: its hop limit, its ports, its receiver, as in "64 1000 4000 ff02::1". */
#include "contiki.h"
#include "net/ipv6/tcpip.h"
#include "net/ipv6/uiplib.h"

#include <stdio.h>

PROCESS(sends, "Sends");
AUTOSTART_PROCESSES(&sends);

static void
send_packet_of(struct uip_udp_conn *conn, const char *line)
{
  unsigned limit, from, to;
  char text[UIPLIB_IPV6_MAX_STR_LEN];
  if(sscanf(line, "%u %u %u %39s", &limit, &from, &to, text) == 4 && uiplib_ipaddrconv(text, &conn->ripaddr)) {
    udp_bind(conn, UIP_HTONS(from));
    conn->rport = UIP_HTONS(to);
    conn->ttl = (uint8_t)limit;
    uip_udp_packet_send(conn, "x", 1);
  }
}

PROCESS_THREAD(sends, ev, data)
{
  static struct uip_udp_conn *conn;
  PROCESS_BEGIN();
  conn = udp_new(NULL, 0, NULL);
  while(1) {
    PROCESS_WAIT_EVENT_UNTIL(ev == serial_line_event_message);
    send_packet_of(conn, data);
  }
  PROCESS_END();
}
