// The yardstick of the benches: reads a file and prints the CRC-32 of its octets, one octet after the other by a table. Each
// step needs the one before it and no instruction of a processor does the work, so its time differs little between machines.
#include <fcntl.h>
#include <stdint.h>
#include <stdio.h>
#include <unistd.h>

int main(int count, char **words) {
    static unsigned char buffer[65536];
    uint32_t table[256], sum = UINT32_MAX;
    ssize_t size;
    int file = count == 2 ? open(words[1], O_RDONLY) : -1;
    if (file < 0)
        return 1;
    for (uint32_t octet = 0; octet < 256; octet++) {
        table[octet] = octet;
        for (int bit = 0; bit < 8; bit++)
            table[octet] = table[octet] >> 1 ^ (table[octet] & 1 ? 0xedb88320 : 0);
    }
    while ((size = read(file, buffer, sizeof buffer)) > 0)
        for (ssize_t at = 0; at < size; at++)
            sum = sum >> 8 ^ table[(sum ^ buffer[at]) & 255];
    printf("%08x\n", (unsigned)~sum);
    return size < 0;
}
