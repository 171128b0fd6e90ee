/* Universal addresses (RFC 5665 section 5.2.3.3). */
#include "calls.h"

static const struct { const char *text; uint8_t host[4]; uint16_t port; } addresses[] = {
    {"127.0.0.1.8.1", {127, 0, 0, 1}, 2049},
    {"192.0.2.17.0.111", {192, 0, 2, 17}, 111},
    {"0.0.0.0.0.0", {0, 0, 0, 0}, 0},
    {"255.255.255.255.255.255", {255, 255, 255, 255}, 65535},
    {"10.9.99.100.1.0", {10, 9, 99, 100}, 256},
};

/* A leading zero, a number above 255, five numbers and seven, an empty one, a sign, white space, and what is none. */
static const char *const others[] = {
    "", ".", "1", "1.2.3.4.5", "1.2.3.4.5.6.7", "1.2.3.4.5.", ".1.2.3.4.5.6", "1..2.3.4.5", "01.2.3.4.5.6",
    "1.2.3.4.5.00", "256.0.0.0.0.0", "0.0.0.0.0.256", "1.2.3.4.5.1000", "+1.2.3.4.5.6", "-1.2.3.4.5.6", " 1.2.3.4.5.6",
    "1.2.3.4.5.6 ", "1.2.3.4.5.6\n", "1,2,3,4,5,6", "a.2.3.4.5.6", "::1.8.1", "1.2.3.4.5.99999999999999999999",
};

static void read_one(const char *text, size_t count, uint32_t wanted, const uint8_t *is_host, uint16_t is_port) {
    uint8_t host[4] = {9, 9, 9, 9};
    uint16_t port = 9;
    uint32_t status = oncrpc_uaddr_read(text, count, host, &port);
    judge(status == wanted && !memcmp(host, is_host, 4) && port == is_port, status);
}

/* Too little room by a byte, and enough. */
static void write_one(size_t i) {
    uint8_t room[32];
    size_t count = 9, size = strlen(addresses[i].text);
    memset(room, '.', sizeof room);
    uint32_t status = oncrpc_uaddr_write(addresses[i].host, addresses[i].port, room, size - 1, &count);
    judge(status == ONCRPC_NO_ROOM && count == size && room[0] == '.', status);
    if (status == ONCRPC_NO_MEMORY) {
        judge(!count && room[0] == '.', 0);
    }
    status = oncrpc_uaddr_write(addresses[i].host, addresses[i].port, room, sizeof room, &count);
    judge(status == ONCRPC_OK && count == size && !memcmp(room, addresses[i].text, size) && room[size] == '.', status);
}

void check_addresses(void) {
    static const uint8_t none[4];
    for (size_t i = 0; i < sizeof addresses / sizeof *addresses; i++) {
        read_one(addresses[i].text, strlen(addresses[i].text), ONCRPC_OK, addresses[i].host, addresses[i].port);
        write_one(i);
    }
    for (size_t i = 0; i < sizeof others / sizeof *others; i++) {
        read_one(others[i], strlen(others[i]), ONCRPC_NOT_AN_ADDRESS, none, 0);
    }
    /* A zero within the text, and a byte above those of ASCII. */
    read_one("1.2.3.4.5.6", 12, ONCRPC_NOT_AN_ADDRESS, none, 0);
    read_one("1.2.3.4.5.\xb2", 11, ONCRPC_NOT_AN_ADDRESS, none, 0);
}
