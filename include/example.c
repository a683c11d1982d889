/* A hall of one triangle in a lent buffer: edited, refused once, and saved. How to link it is in calicofern.h. */
#include "calicofern.h"

#include <stdio.h>
#include <string.h>

static uint32_t bits(float value) {
    uint32_t number;
    memcpy(&number, &value, sizeof number);
    return number;
}

int main(void) {
    static uint8_t hall[1000], image[1000];
    const uint8_t corners[36] = {0};
    const uint32_t triangle[3] = {0, 1, 2}, wrong[3] = {0, 1, 3};
    uint64_t n = 0, size;
    uint8_t check = calicofern_add_model(hall, sizeof hall, 0, 0, 0xFF, &n);
    if (check == 0)
        check = calicofern_add_geometry(hall, sizeof hall, n, 5, 1u << CALICOFERN_POSITION, 12, 0, 1, CALICOFERN_FLOAT3, 12, 3, corners,
                                        sizeof corners, triangle, 3, &n);
    if (check == 0)
        check = calicofern_set_attribute(hall, sizeof hall, n, 0, 0, 1, CALICOFERN_POSITION, CALICOFERN_SHAPE_FLOAT3, bits(20.0f), 0, 0, 0, &n);
    if (check != 0) {
        printf("refused by check %d\n", check);
        return 1;
    }
    check = calicofern_replace_indices(hall, sizeof hall, n, 0, 0, wrong, 3, &size);
    printf("index 3 of 3 vertices: %s %d\n", check == CALICOFERN_CHECK_INDEX_RANGE ? "refused by check" : "not refused so, but", check);
    check = calicofern_save(hall, sizeof hall, n, image, sizeof image, &size);
    printf("the hall has %d bytes, its image %d\n", (int)n, (int)size);
    return check;
}
