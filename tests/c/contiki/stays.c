/* A receiver whose process ends at once: frames come in all the same. It is begun anew, by another process and by its callback. */
#include "contiki.h"
#include "net/netstack.h"
#include "net/nullnet/nullnet.h"

PROCESS(receiver, "Receiver");
PROCESS(helper, "Helper");
AUTOSTART_PROCESSES(&receiver);

static struct ctimer late;
static struct etimer unheard;

static void
report(CC_UNUSED void *ptr)
{
  printf("late at %lu\n", clock_time());
}

static void
input(const void *data, uint16_t len, CC_UNUSED const linkaddr_t *src, CC_UNUSED const linkaddr_t *dest)
{
  int number = *(const uint8_t *)data;
  printf("frame %d of %d\n", number, len);
  if(number == 1) {
    process_start(&helper, NULL);
  } else if(number == 2) {
    process_start(&receiver, NULL);
  } else {
    process_exit(&receiver);
    process_poll(&receiver);
    printf("runs: %d\n", process_is_running(&receiver));
  }
}

PROCESS_THREAD(receiver, ev, data)
{
  PROCESS_BEGIN();

  printf("begins\n");
  nullnet_set_input_callback(input);
  if(data == NULL) {
    etimer_set(&unheard, 4);
    ctimer_set(&late, 7, report, NULL);
  } else {
    PROCESS_WAIT_EVENT_UNTIL(ev == PROCESS_EVENT_EXITED && data == &helper);
    printf("helper ended\n");
  }

  PROCESS_END();
}

PROCESS_THREAD(helper, ev, data)
{
  PROCESS_BEGIN();

  printf("receiver runs: %d\n", process_is_running(&receiver));
  PROCESS_WAIT_EVENT_UNTIL(ev == serial_line_event_message);
  process_start(&receiver, &helper);

  PROCESS_END();
}
