/* core cortex-m3 machine lm3s6965evb shift 6 */
MEMORY
{
  FLASH (rx)  : ORIGIN = 0, LENGTH = 256K
  RAM   (rwx) : ORIGIN = 0x20000000, LENGTH = 64K
}
stack_size_open = 11K;
stack_size = 8K;
INCLUDE board.ld
