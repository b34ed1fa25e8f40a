/* As libs/logging: a line of each level, addresses of both kinds, bytes, and a line that is put together from parts. */
#include "contiki.h"
#include "net/ipv6/uip.h"
#include "net/ipv6/uiplib.h"
#include "net/linkaddr.h"

/* Log configuration */
#include "sys/log.h"
#define LOG_MODULE "App"
#define LOG_LEVEL LOG_LEVEL_APP

PROCESS(logger, "Logger");
AUTOSTART_PROCESSES(&logger);

PROCESS_THREAD(logger, ev, data)
{
  static const uint8_t bytes[] = {0x0a, 0xff};
  static struct etimer timer;
  static linkaddr_t far = {{1, 2, 3, 4, 5, 6, 0xab, 0xcd}};
  static uip_ipaddr_t address;

  PROCESS_BEGIN();

  etimer_set(&timer, CLOCK_SECOND);
  PROCESS_WAIT_EVENT_UNTIL(etimer_expired(&timer));
  LOG_PRINT("always\n");
  LOG_ERR("error %d\n", 1);
  LOG_WARN("warning\n");
  LOG_INFO("information at %lu\n", clock_seconds());
  LOG_DBG("nobody sees this\n");

  LOG_WARN("from ");
  LOG_WARN_LLADDR(&linkaddr_node_addr);
  LOG_WARN_(" to ");
  LOG_WARN_LLADDR(&far);
  LOG_WARN_(" or all ");
  LOG_WARN_LLADDR(&linkaddr_null);
  LOG_WARN_("\n");

  uip_ip6addr(&address, 0xfd00, 0, 0, 0, 0x0212, 0x7402, 0, 0x0202);
  LOG_INFO("address ");
  LOG_INFO_6ADDR(&address);
  LOG_INFO_(" or ");
  LOG_INFO_6ADDR(NULL);
  LOG_INFO_(", whole ");
  uiplib_ipaddr_print(&address);
  printf(" %d ", uiplib_ipaddrconv("fe80::1:0", &address));
  log_6addr(&address);
  LOG_INFO_("\n");

  LOG_INFO("bytes ");
  LOG_INFO_BYTES(bytes, sizeof(bytes));
  LOG_INFO_("\n");

  PROCESS_END();
}
