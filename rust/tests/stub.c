/*
 * In the library's place, for tests/another_version.rs: each function returns STUB_STATUS and writes to `out` the
 * numbers of STUB_WORDS, as many as there are.
 */
#include <stdlib.h>

#include "yasmurekh.h"

static uint64_t answer(uint64_t *out, size_t out_len) {
    const char *text = getenv("STUB_WORDS");
    for (size_t place = 0; text && *text && place < out_len; place++) {
        char *end;
        out[place] = strtoull(text, &end, 10);
        text = end;
    }
    const char *status = getenv("STUB_STATUS");
    return status ? strtoull(status, NULL, 10) : 0;
}

uint64_t yasmurekh_request(uint64_t first_start, uint8_t *first, size_t first_len, uint64_t second_start,
                           uint8_t *second, size_t second_len, uint64_t mode, uint64_t root, uint64_t device,
                           uint64_t process, uint64_t flags, uint64_t access, uint64_t address, uint64_t length,
                           uint32_t value, uint64_t *out, size_t out_len) {
    (void)first_start, (void)first, (void)first_len, (void)second_start, (void)second, (void)second_len;
    (void)mode, (void)root, (void)device, (void)process, (void)flags, (void)access, (void)address, (void)length;
    (void)value;
    return answer(out, out_len);
}

uint64_t yasmurekh_take(uint64_t first_start, uint8_t *first, size_t first_len, uint64_t second_start,
                        uint8_t *second, size_t second_len, uint64_t file, uint64_t identity, uint64_t *out,
                        size_t out_len) {
    (void)first_start, (void)first, (void)first_len, (void)second_start, (void)second, (void)second_len;
    (void)file, (void)identity;
    return answer(out, out_len);
}

uint64_t yasmurekh_take_many(uint64_t first_start, uint8_t *first, size_t first_len, uint64_t second_start,
                             uint8_t *second, size_t second_len, uint64_t file, uint64_t doubleword, uint64_t mask,
                             uint64_t *out, size_t out_len) {
    (void)first_start, (void)first, (void)first_len, (void)second_start, (void)second, (void)second_len;
    (void)file, (void)doubleword, (void)mask;
    return answer(out, out_len);
}

uint64_t yasmurekh_report(uint64_t first_start, const uint8_t *first, size_t first_len, uint64_t second_start,
                          const uint8_t *second, size_t second_len, uint64_t file, uint64_t *out, size_t out_len) {
    (void)first_start, (void)first, (void)first_len, (void)second_start, (void)second, (void)second_len;
    (void)file;
    return answer(out, out_len);
}

uint64_t yasmurekh_aplic_wire(uint64_t *state, size_t state_len, uint64_t source, uint64_t level) {
    (void)state, (void)state_len, (void)source, (void)level;
    return answer(NULL, 0);
}

uint64_t yasmurekh_aplic_write(uint64_t *state, size_t state_len, uint64_t offset, uint32_t value) {
    (void)state, (void)state_len, (void)offset, (void)value;
    return answer(NULL, 0);
}

uint64_t yasmurekh_aplic_read(uint64_t *state, size_t state_len, uint64_t offset, uint64_t *out, size_t out_len) {
    (void)state, (void)state_len, (void)offset;
    return answer(out, out_len);
}

uint64_t yasmurekh_aplic_forward(uint64_t *state, size_t state_len, uint64_t *out, size_t out_len) {
    (void)state, (void)state_len;
    return answer(out, out_len);
}

uint64_t yasmurekh_aplic_claim(uint64_t *state, size_t state_len, uint64_t hart, uint64_t *out, size_t out_len) {
    (void)state, (void)state_len, (void)hart;
    return answer(out, out_len);
}

uint64_t yasmurekh_aplic_signal(uint64_t *state, size_t state_len, uint64_t hart, uint64_t *out, size_t out_len) {
    (void)state, (void)state_len, (void)hart;
    return answer(out, out_len);
}
