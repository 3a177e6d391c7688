/* Frames: byte 0x7e, a command, the payload's length, the payload, a checksum. */
#ifndef FRAME_H
#define FRAME_H

#include <stddef.h>
#include <stdint.h>

enum { FRAME_START = 0x7e, MAX_PAYLOAD = 4, MAX_FRAME = MAX_PAYLOAD + 4 };

typedef struct {
    uint8_t command;
    uint8_t length;
    const uint8_t *payload;
} frame_t;

/** Reads a frame. Returns 0, or else what is wrong with it, as a text. */
const char *read_frame(const uint8_t *bytes, size_t size, frame_t *frame);

/** Does what the frame commands. Returns the number of bytes of the reply. */
size_t run_command(const frame_t *frame, uint8_t reply[MAX_PAYLOAD]);

#endif
