/* core cortex-m3 machine mps2-an385 shift 5 */
MEMORY
{
  FLASH (rx)  : ORIGIN = 0, LENGTH = 4096K
  RAM   (rwx) : ORIGIN = 0x21000000, LENGTH = 16M
}
stack_size_open = 64K;
stack_size = 64K;
INCLUDE board.ld
