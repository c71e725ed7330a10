// A frame of profile lines as plain numbers, and the calls that write and read one: the count of words, or minus a refusal's number.
#include <stddef.h>
#include <stdint.h>

struct line_frame {
    uint32_t kind; // 1 request of slots, 2 slots, 3 token, 4 acknowledgement
    uint32_t sender;
    uint32_t addressee;
    uint64_t s;
    uint64_t r;
    uint64_t n;
    uint64_t l;
    uint32_t place;
    int32_t step;
};

typedef int64_t write_line(const struct line_frame *frame, uint32_t *run, size_t room);
typedef int64_t read_line(const uint32_t *run, size_t room, struct line_frame *frame);

// The proved ones.
write_line keyvurram_write_line;
read_line keyvurram_read_line;

// The plain ones, in C.
write_line plain_write_line;
read_line plain_read_line;
