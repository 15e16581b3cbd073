/* A firmware of README's example, for README's commands to build: a port chip that tells what it sends, a store of zeros, and a host that logs in. */
#include "example.c"

#include <stdio.h>
#include <string.h>

void chip_send(const uint8_t *frame, size_t n) {
    printf("%zu bytes, R_CTL %02X, code %02X\n", n, frame[0], frame[24]);
}

void store_read(uint64_t block, uint8_t *bytes, size_t n) {
    (void)block;
    memset(bytes, 0, n);
}

void store_write(uint64_t block, const uint8_t *bytes, size_t n) {
    (void)block, (void)bytes, (void)n;
}

/* Accept words that pass the PLOGI rules, by the header's own list of them. */
static void fill(uint8_t accept[JHARTUPAL_ACCEPT]) {
    accept[6] = accept[70] = 0x08;
    accept[16] = accept[24] = 0x20;
    accept[64] = 0x80;
    accept[73] = accept[77] = 1;
}

int main(void) {
    struct jhartupal_setup setup = {.capacity = 100, .address = 0xEF};
    uint8_t login[28 + JHARTUPAL_ACCEPT] = {0x22, 0, 0, 0xEF, 0, 0, 0, 0x01, 0x01, 0x29};
    fill(setup.accept);
    login[24] = 0x03;
    memcpy(login + 28, setup.accept, JHARTUPAL_ACCEPT);
    if (!power_up(&setup)) return 1;
    frame_arrived(login, sizeof login);
    return 0;
}
