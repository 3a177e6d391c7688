/* Reads each argument as a frame in hexadecimal, and prints the reply as one. */
#include <stdio.h>

#include "checksum.h"
#include "frame.h"

static size_t read_hex(const char *text, uint8_t bytes[MAX_FRAME]) {
    size_t size = 0;
    unsigned byte;
    while (size < MAX_FRAME && sscanf(text, "%2x", &byte) == 1) {
        bytes[size++] = (uint8_t)byte;
        text += text[1] ? 2 : 1;
    }
    return size;
}

static void print_reply(uint8_t command, size_t length, uint8_t reply[MAX_FRAME]) {
    reply[0] = FRAME_START;
    reply[1] = command;
    reply[2] = (uint8_t)length;
    reply[3 + length] = checksum(reply, 3 + length);
    for (size_t i = 0; i < length + 4; i++)
        printf("%02x", reply[i]);
    printf("\n");
}

int main(int argc, char **argv) {
    uint8_t bytes[MAX_FRAME], reply[MAX_FRAME];
    frame_t frame;
    int refused = 0;
    for (int i = 1; i < argc; i++) {
        size_t size = read_hex(argv[i], bytes);
        const char *fault = read_frame(bytes, size, &frame);
        if (fault) {
            printf("%s\n", fault);
            refused++;
        } else {
            print_reply(frame.command, run_command(&frame, reply + 3), reply);
        }
    }
    return refused > 0;
}
