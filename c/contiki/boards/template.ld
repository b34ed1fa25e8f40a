/* core cortex-m3 machine none shift 0 */
MEMORY
{
  FLASH (rx)  : ORIGIN = 0, LENGTH = 512K
  RAM   (rwx) : ORIGIN = 0x20000000, LENGTH = 96K
}
stack_size_open = 12K;
stack_size = 12K;
INCLUDE board.ld
