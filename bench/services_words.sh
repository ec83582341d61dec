# Sourced after lists.sh by the scripts that time readers of services: a program `services_words` that writes the words of frames whose
# captions are in services of DTVCC. Needs gcc.

gcc -O2 -o "$work/services_words" -x c - <<'END'
// Writes the words of frames at 29.97 whose captions are those of services of DTVCC, as many frames as the first argument says. Of every
// 60 frames a service deletes its window in the first, makes it anew, of two rows of 32 columns, and writes 60 characters in three rows
// into it in that frame and the next four: one service, or, where the second argument is "all", six services, each ten frames behind the former
// one, or none, where it is "none". The other frames carry nothing.
#include <stdio.h>
#include <stdlib.h>
#include <string.h>

enum { TRIPLETS = 20, HEAD = 9, SIZE = HEAD + 3 * TRIPLETS + 4 };

static unsigned packets;

// a byte as a word of ten bits: bit 8 is even parity, bit 9 its inverse
static unsigned word_of(unsigned byte) { return byte + (__builtin_parity(byte) ? 0x100 : 0x200); }

static void put_word(unsigned word) {
    putchar((int)(word >> 8));
    putchar((int)(word & 0xFF));
}

// the bytes that a service is sent in the frame of this number of its 60, and how many they are
static int bytes_at(unsigned frame, unsigned char *bytes) {
    static const unsigned char window[] = {0x8C, 0x01, 0x98, 0x20, 0x00, 0x00, 0x01, 0x1F, 0x09};
    if (frame >= 5) return 0;
    int count = 0;
    if (frame == 0) {
        memcpy(bytes, window, sizeof window);
        count = sizeof window;
    } else if (frame % 2 == 0) {
        bytes[count++] = 0x0D;
    }
    for (int i = 0; i < 12; i++) bytes[count++] = (unsigned char)('A' + (frame * 12 + i) % 26);
    return count;
}

// a channel packet of one block, in triplets
static int packet_of(unsigned service, const unsigned char *bytes, int count, unsigned char (*triplets)[3]) {
    unsigned char packet[64] = {0};
    packet[1] = (unsigned char)(service << 5 | count);
    memcpy(packet + 2, bytes, (size_t)count);
    int pairs = (count + 3) / 2;
    packet[0] = (unsigned char)(packets++ % 4 << 6 | pairs);
    for (int i = 0; i < pairs; i++) {
        triplets[i][0] = i == 0 ? 0xFF : 0xFE;
        triplets[i][1] = packet[2 * i];
        triplets[i][2] = packet[2 * i + 1];
    }
    return pairs;
}

static void put_frame(unsigned number, unsigned services) {
    unsigned char cdp[SIZE] = {0x96, 0x69, SIZE, 0x4F, 0x43, 0, 0, 0x72, 0xE0 + TRIPLETS};
    cdp[5] = cdp[SIZE - 3] = (unsigned char)(number >> 8);
    cdp[6] = cdp[SIZE - 2] = (unsigned char)number;
    cdp[SIZE - 4] = 0x74;
    unsigned char(*triplets)[3] = (unsigned char(*)[3])(cdp + HEAD);
    memcpy(triplets, "\xFC\x80\x80\xFD\x80\x80", 6);
    int used = 2;
    for (unsigned service = 1; service <= services; service++) {
        unsigned char bytes[32];
        int count = bytes_at((number + 60 - 10 * (service - 1)) % 60, bytes);
        if (count > 0) used += packet_of(service, bytes, count, triplets + used);
    }
    for (; used < TRIPLETS; used++) triplets[used][0] = 0xFA;
    unsigned sum = 0;
    for (int i = 0; i < SIZE - 1; i++) sum += cdp[i];
    cdp[SIZE - 1] = (unsigned char)-sum;

    put_word(0), put_word(0x3FF), put_word(0x3FF);
    unsigned check = 0;
    const unsigned head[] = {0x61, 0x01, SIZE};
    for (int i = 0; i < 3 + SIZE; i++) {
        unsigned word = word_of(i < 3 ? head[i] : cdp[i - 3]);
        check += word & 0x1FF;
        put_word(word);
    }
    check &= 0x1FF;
    put_word(check | (~check << 1 & 0x200));
}

int main(int count, char **arguments) {
    if (count != 3) return 1;
    unsigned services = strcmp(arguments[2], "all") == 0 ? 6 : strcmp(arguments[2], "one") == 0;
    for (unsigned number = 0; number < strtoul(arguments[1], NULL, 10); number++) put_frame(number, services);
    return 0;
}
END
