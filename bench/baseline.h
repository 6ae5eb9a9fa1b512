/* What a baseline in C has to have: the library's calls under names of their own, so that both can be linked into one program. */
#ifndef BASELINE_H
#define BASELINE_H

#include "vanc.h"

vanc_laid baseline_lay(const uint16_t *sheet, size_t sheet_len, uint64_t packing, uint8_t *area, size_t area_len);

vanc_read_back baseline_read(uint64_t system, const uint8_t *area, size_t area_len, uint16_t *sheet, size_t sheet_len);

vanc_element_written baseline_mxf_write(const uint16_t *sheet, size_t sheet_len, bool fi, uint8_t *element, size_t element_len);

vanc_element_read baseline_mxf_read(uint64_t system, bool fi, const uint8_t *element, size_t element_len, uint16_t *sheet, size_t sheet_len);

vanc_element_written baseline_mxf_write10(const uint16_t *sheet, size_t sheet_len, bool fi, uint8_t *element, size_t element_len);

vanc_element_read baseline_mxf_read10(uint64_t system, bool fi, const uint8_t *element, size_t element_len, uint16_t *sheet, size_t sheet_len);

#endif
