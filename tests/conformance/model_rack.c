/* model_rack.c: the library's sheet run, as the model has it. */
#include "rack.h"
#include "../model/model.h"

uint32_t rack_sheet_run(const uint8_t *sheet, size_t sheet_length, uint8_t *listing, size_t listing_length)
{
    const struct model_listing ran = model_sheet_run(sheet, sheet_length, listing, listing_length);
    return (uint32_t)ran.refusal * 65536u + (uint32_t)ran.length;
}
