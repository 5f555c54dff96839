#include <stdio.h>
#include "ferghulta.h"

int main(void) {
    const uint16_t lights[] = {11796, 11796, 11796, 1900, 9000, 60000}; /* R, G, B of an 18 % grey and of a blue lamp */
    uint16_t codes[6];
    uint8_t block[FERGHULTA_BLOCK_BYTES(2)];
    ferghulta_picture picture = ferghulta_new();
    if (ferghulta_open_of(&picture, FERGHULTA_BT709_10, 2, 1)) return 1; /* 2 samples wide, 1 row high */
    if (ferghulta_row_of(&picture, lights, 6, block, sizeof block) || ferghulta_close_of(&picture)) return 1;
    if (ferghulta_read_block(block, sizeof block, codes, 6).refusal) return 1;
    for (size_t i = 0; i < sizeof block; i++) printf("%02x%c", block[i], i + 1 < sizeof block ? ' ' : '\n');
    for (int i = 0; i < 6; i++) printf("light %5d read back as code %d\n", lights[i], codes[i]);
}
