#include "frame.h"
#include "checksum.h"

const char *read_frame(const uint8_t *bytes, size_t size, frame_t *frame) {
    if (size < 4)
        return "too short";
    if (bytes[0] != FRAME_START)
        return "no start byte";
    if (bytes[2] > MAX_PAYLOAD || size != bytes[2] + 4u)
        return "wrong length";
    if (checksum(bytes, size - 1) != bytes[size - 1])
        return "wrong checksum";
    frame->command = bytes[1];
    frame->length = bytes[2];
    frame->payload = bytes + 3;
    return 0;
}
