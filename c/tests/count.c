/* In place of xti_c_step, by the linker's --wrap: counts the steps that were made, apart from what a journal says of them. The file that
   XTI_STEPS names gets the number at the end. */
#include "../src/xti_c.h"
#include <stdio.h>
#include <stdlib.h>

uint32_t __real_xti_c_step(struct xti_world given, struct xti_world *kept, const struct xti_asked *asked, const uint8_t *addr,
    size_t addr_len, const uint8_t *opt, size_t opt_len, const uint8_t *udata, size_t udata_len, const uint32_t *sizes,
    size_t sizes_len, struct xti_told *told, uint8_t *addr_room, size_t addr_room_len, uint8_t *opt_room,
    size_t opt_room_len, uint8_t *udata_room, size_t udata_room_len, uint32_t worker, uint64_t number, uint8_t *line_room,
    size_t line_room_len, size_t *line_len);
uint32_t __wrap_xti_c_step(struct xti_world given, struct xti_world *kept, const struct xti_asked *asked, const uint8_t *addr,
    size_t addr_len, const uint8_t *opt, size_t opt_len, const uint8_t *udata, size_t udata_len, const uint32_t *sizes,
    size_t sizes_len, struct xti_told *told, uint8_t *addr_room, size_t addr_room_len, uint8_t *opt_room,
    size_t opt_room_len, uint8_t *udata_room, size_t udata_room_len, uint32_t worker, uint64_t number, uint8_t *line_room,
    size_t line_room_len, size_t *line_len);

static long steps;

uint32_t __wrap_xti_c_step(struct xti_world given, struct xti_world *kept, const struct xti_asked *asked, const uint8_t *addr,
    size_t addr_len, const uint8_t *opt, size_t opt_len, const uint8_t *udata, size_t udata_len, const uint32_t *sizes,
    size_t sizes_len, struct xti_told *told, uint8_t *addr_room, size_t addr_room_len, uint8_t *opt_room,
    size_t opt_room_len, uint8_t *udata_room, size_t udata_room_len, uint32_t worker, uint64_t number, uint8_t *line_room,
    size_t line_room_len, size_t *line_len)
{
    uint32_t end = __real_xti_c_step(given, kept, asked, addr, addr_len, opt, opt_len, udata, udata_len, sizes, sizes_len, told,
        addr_room, addr_room_len, opt_room, opt_room_len, udata_room, udata_room_len, worker, number, line_room, line_room_len,
        line_len);

    steps += end == XTI_DONE || end == XTI_PART;
    return end;
}

__attribute__((destructor)) static void tell(void)
{
    const char *name = getenv("XTI_STEPS");
    FILE *file = name ? fopen(name, "w") : NULL;

    if (!file)
        return;
    fprintf(file, "%ld\n", steps);
    fclose(file);
}
