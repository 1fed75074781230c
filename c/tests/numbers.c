/* The numbers of <xti.h>, as the tables of the project have them. */
#include "harness.h"

static const struct {
    const char *name;
    long found, expected;
} numbers[] = {
    { "TBADADDR", TBADADDR, 1 },
    { "TBADOPT", TBADOPT, 2 },
    { "TACCES", TACCES, 3 },
    { "TBADF", TBADF, 4 },
    { "TNOADDR", TNOADDR, 5 },
    { "TOUTSTATE", TOUTSTATE, 6 },
    { "TBADSEQ", TBADSEQ, 7 },
    { "TSYSERR", TSYSERR, 8 },
    { "TLOOK", TLOOK, 9 },
    { "TBADDATA", TBADDATA, 10 },
    { "TBUFOVFLW", TBUFOVFLW, 11 },
    { "TFLOW", TFLOW, 12 },
    { "TNODATA", TNODATA, 13 },
    { "TNODIS", TNODIS, 14 },
    { "TNOUDERR", TNOUDERR, 15 },
    { "TBADFLAG", TBADFLAG, 16 },
    { "TNOREL", TNOREL, 17 },
    { "TNOTSUPPORT", TNOTSUPPORT, 18 },
    { "TSTATECHNG", TSTATECHNG, 19 },
    { "TNOSTRUCTYPE", TNOSTRUCTYPE, 20 },
    { "TBADNAME", TBADNAME, 21 },
    { "TBADQLEN", TBADQLEN, 22 },
    { "TADDRBUSY", TADDRBUSY, 23 },
    { "TINDOUT", TINDOUT, 24 },
    { "TPROVMISMATCH", TPROVMISMATCH, 25 },
    { "TRESQLEN", TRESQLEN, 26 },
    { "TRESADDR", TRESADDR, 27 },
    { "TQFULL", TQFULL, 28 },
    { "TPROTO", TPROTO, 29 },
    { "T_LISTEN", T_LISTEN, 0x001 },
    { "T_CONNECT", T_CONNECT, 0x002 },
    { "T_DATA", T_DATA, 0x004 },
    { "T_EXDATA", T_EXDATA, 0x008 },
    { "T_DISCONNECT", T_DISCONNECT, 0x010 },
    { "T_UDERR", T_UDERR, 0x040 },
    { "T_ORDREL", T_ORDREL, 0x080 },
    { "T_GODATA", T_GODATA, 0x100 },
    { "T_GOEXDATA", T_GOEXDATA, 0x200 },
    { "T_MORE", T_MORE, 1 },
    { "T_EXPEDITED", T_EXPEDITED, 2 },
    { "T_SENDZERO", T_SENDZERO, 1 },
    { "T_ORDRELDATA", T_ORDRELDATA, 2 },
    { "T_INFINITE", T_INFINITE, -1 },
    { "T_INVALID", T_INVALID, -2 },
    { "T_COTS", T_COTS, 1 },
    { "T_COTS_ORD", T_COTS_ORD, 2 },
    { "T_CLTS", T_CLTS, 3 },
    { "XTI_GENERIC", XTI_GENERIC, 65535 },
    { "XTI_SNDBUF", XTI_SNDBUF, 4097 },
    { "XTI_RCVBUF", XTI_RCVBUF, 4098 },
    { "XTI_SNDLOWAT", XTI_SNDLOWAT, 4099 },
    { "XTI_RCVLOWAT", XTI_RCVLOWAT, 4100 },
    { "T_NEGOTIATE", T_NEGOTIATE, 4 },
    { "T_CHECK", T_CHECK, 8 },
    { "T_DEFAULT", T_DEFAULT, 16 },
    { "T_CURRENT", T_CURRENT, 128 },
    { "T_SUCCESS", T_SUCCESS, 32 },
    { "T_FAILURE", T_FAILURE, 64 },
    { "T_PARTSUCCESS", T_PARTSUCCESS, 256 },
    { "T_READONLY", T_READONLY, 512 },
    { "T_NOTSUPPORT", T_NOTSUPPORT, 1024 },
    { "T_UNINIT", T_UNINIT, 0 },
    { "T_UNBND", T_UNBND, 1 },
    { "T_IDLE", T_IDLE, 2 },
    { "T_OUTCON", T_OUTCON, 3 },
    { "T_INCON", T_INCON, 4 },
    { "T_DATAXFER", T_DATAXFER, 5 },
    { "T_OUTREL", T_OUTREL, 6 },
    { "T_INREL", T_INREL, 7 },
};

int main(void)
{
    size_t i;

    for (i = 0; i < sizeof numbers / sizeof *numbers; i++)
        if (!CHECK(numbers[i].found == numbers[i].expected))
            printf("  %s\n", numbers[i].name);
    return finish("numbers");
}
