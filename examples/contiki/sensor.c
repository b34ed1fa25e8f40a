/* A sensor that takes a reading at a time, and sends the mean of each four. A frame of one byte sets the ticks between readings. */
#include "contiki.h"
#include "net/netstack.h"
#include "net/nullnet/nullnet.h"

#include "sys/log.h"
#define LOG_MODULE "Sensor"
#define LOG_LEVEL LOG_LEVEL_INFO

#define READINGS 4

PROCESS(sensor, "Sensor");
AUTOSTART_PROCESSES(&sensor);

static clock_time_t period = CLOCK_SECOND;

static unsigned
read_sensor(void)
{
  static const unsigned values[] = {20, 21, 23, 24, 24, 26};
  static unsigned next;
  return values[next++ % (sizeof values / sizeof values[0])];
}

static void
received(const void *data, uint16_t len, const linkaddr_t *src, const linkaddr_t *dest)
{
  const uint8_t *bytes = data;
  (void)src;
  (void)dest;
  if(len == 1 && bytes[0] > 0) {
    period = bytes[0];
    process_poll(&sensor);
  }
}

PROCESS_THREAD(sensor, ev, data)
{
  static struct etimer timer;
  static unsigned sum, count;
  static uint8_t mean;

  PROCESS_BEGIN();

  nullnet_buf = &mean;
  nullnet_len = sizeof mean;
  nullnet_set_input_callback(received);
  etimer_set(&timer, period);
  while(1) {
    PROCESS_WAIT_EVENT();
    if(ev == PROCESS_EVENT_POLL) {
      LOG_INFO("every %lu ticks\n", period);
      etimer_set(&timer, period);
    } else if(etimer_expired(&timer)) {
      sum += read_sensor();
      if(++count == READINGS) {
        mean = (uint8_t)(sum / READINGS);
        sum = count = 0;
        LOG_INFO("mean %u\n", mean);
        NETSTACK_NETWORK.output(NULL);
      }
      etimer_reset(&timer);
    }
  }

  PROCESS_END();
}
