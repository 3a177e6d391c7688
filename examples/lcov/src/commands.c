#include "frame.h"

static uint8_t registers[16];

static size_t ping(const frame_t *frame, uint8_t *reply) {
    for (int i = 0; i < frame->length; i++)
        reply[i] = frame->payload[i];
    return frame->length;
}

static size_t read_register(const frame_t *frame, uint8_t *reply) {
    if (frame->length != 1 || frame->payload[0] >= sizeof registers)
        return 0;
    reply[0] = registers[frame->payload[0]];
    return 1;
}

static size_t write_register(const frame_t *frame, uint8_t *reply) {
    if (frame->length != 2 || frame->payload[0] >= sizeof registers)
        return 0;
    registers[frame->payload[0]] = frame->payload[1];
    reply[0] = frame->payload[1];
    return 1;
}

static size_t reset(const frame_t *frame, uint8_t *reply) {
    for (size_t i = 0; i < sizeof registers; i++)
        registers[i] = 0;
    reply[0] = frame->command;
    return 1;
}

size_t run_command(const frame_t *frame, uint8_t reply[MAX_PAYLOAD]) {
    switch (frame->command) {
    case 1:
        return ping(frame, reply);
    case 2:
        return read_register(frame, reply);
    case 3:
        return write_register(frame, reply);
    case 4:
        return reset(frame, reply);
    default:
        return 0;
    }
}
