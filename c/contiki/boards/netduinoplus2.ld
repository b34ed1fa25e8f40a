/* core cortex-m4 machine netduinoplus2 shift 3 */
MEMORY
{
  FLASH (rx)  : ORIGIN = 0x08000000, LENGTH = 1024K
  RAM   (rwx) : ORIGIN = 0x20000000, LENGTH = 128K
}
stack_size_open = 32K;
stack_size = 16K;
INCLUDE board.ld
