/* t_alloc and t_free. */
#include "errors.h"
#include <errno.h>
#include <stdlib.h>
#include <xti.h>

/* Where the buffers of a structure are; NULL for those that it lacks. */
struct buffers {
    struct netbuf *addr, *opt, *udata;
};

static size_t size_of(int type)
{
    switch (type) {
    case T_BIND:
        return sizeof(struct t_bind);
    case T_OPTMGMT:
        return sizeof(struct t_optmgmt);
    case T_CALL:
        return sizeof(struct t_call);
    case T_DIS:
        return sizeof(struct t_discon);
    case T_UNITDATA:
        return sizeof(struct t_unitdata);
    case T_UDERROR:
        return sizeof(struct t_uderr);
    case T_INFO:
        return sizeof(struct t_info);
    default:
        return 0;
    }
}

static struct buffers buffers_of(void *at, int type)
{
    struct buffers b = { NULL, NULL, NULL };
    struct t_call *call = (struct t_call *)at;
    struct t_unitdata *unitdata = (struct t_unitdata *)at;
    struct t_uderr *uderr = (struct t_uderr *)at;

    switch (type) {
    case T_BIND:
        b.addr = &((struct t_bind *)at)->addr;
        break;
    case T_OPTMGMT:
        b.opt = &((struct t_optmgmt *)at)->opt;
        break;
    case T_CALL:
        b = (struct buffers){ &call->addr, &call->opt, &call->udata };
        break;
    case T_DIS:
        b.udata = &((struct t_discon *)at)->udata;
        break;
    case T_UNITDATA:
        b = (struct buffers){ &unitdata->addr, &unitdata->opt, &unitdata->udata };
        break;
    case T_UDERROR:
        b = (struct buffers){ &uderr->addr, &uderr->opt, NULL };
        break;
    default:
        break;
    }
    return b;
}

/* The limit of a structure's data. */
static t_scalar_t data_limit(const struct t_info *info, int type)
{
    if (type == T_UNITDATA)
        return info->tsdu;
    if (type == T_CALL && info->connect > info->discon)
        return info->connect;
    return info->discon;
}

static int is_of_service(int type, t_scalar_t service)
{
    if (service == T_CLTS)
        return type != T_CALL && type != T_DIS;
    return type != T_UNITDATA && type != T_UDERROR;
}

/* A buffer of so many bytes, where the field is asked for: 0, or -1. A limit that is no number is an error, but not for T_ALL. */
static int make_buffer(struct netbuf *n, int fields, int field, t_scalar_t limit)
{
    if (!n || !(fields & field) || limit == 0 || (limit < 0 && fields == T_ALL))
        return 0;
    if (limit < 0)
        return xti_system_fail(EINVAL);
    n->buf = calloc(1, (size_t)limit);
    if (!n->buf)
        return xti_system_fail(ENOMEM);
    n->maxlen = (unsigned int)limit;
    return 0;
}

int t_free(void *ptr, int struct_type)
{
    struct buffers b;

    if (size_of(struct_type) == 0)
        return xti_fail(TNOSTRUCTYPE);
    if (!ptr)
        return 0;
    b = buffers_of(ptr, struct_type);
    if (b.addr)
        free(b.addr->buf);
    if (b.opt)
        free(b.opt->buf);
    if (b.udata)
        free(b.udata->buf);
    free(ptr);
    return 0;
}

static void *refuse(int error)
{
    xti_fail(error);
    return NULL;
}

void *t_alloc(int fd, int struct_type, int fields)
{
    struct t_info info;
    struct buffers b;
    void *at;

    if (t_getinfo(fd, &info) < 0)
        return NULL;
    if (size_of(struct_type) == 0 || !is_of_service(struct_type, info.servtype))
        return refuse(TNOSTRUCTYPE);
    at = calloc(1, size_of(struct_type));
    if (!at) {
        xti_system_fail(ENOMEM);
        return NULL;
    }
    b = buffers_of(at, struct_type);
    if (make_buffer(b.addr, fields, T_ADDR, info.addr) == 0 && make_buffer(b.opt, fields, T_OPT, info.options) == 0 &&
        make_buffer(b.udata, fields, T_UDATA, data_limit(&info, struct_type)) == 0)
        return at;
    t_free(at, struct_type);
    return NULL;
}
