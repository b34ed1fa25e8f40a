/* The CRC of ITU-T X.25 (polynomial 0x1021, bits reversed), as Contiki-NG has it. */
#ifndef CRC16_H_
#define CRC16_H_

unsigned short crc16_add(unsigned char b, unsigned short crc);
unsigned short crc16_data(const unsigned char *data, int datalen, unsigned short acc);

#endif
