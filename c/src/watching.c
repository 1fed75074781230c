/* Who can wait for descriptors is seen by the names that the program and its libraries take from other libraries. */
#include "watching.h"
#include <elf.h>
#include <link.h>
#include <pthread.h>
#include <string.h>

/* Functions that wait for descriptors, and those by which more functions are reached. */
static const char *const waiting[] = { "poll", "ppoll", "__poll_chk", "__ppoll_chk", "select", "pselect", "epoll_ctl",
    "io_uring_queue_init", "io_uring_queue_init_params", "dlopen", "dlmopen", "dlsym", "dlvsym", "syscall" };

/* How the process stands: of how many files the names were seen, and whether one of these is among them. */
struct seen {
    int files, waits;
};

static int is_waiting(const char *name)
{
    size_t i;

    for (i = 0; i < sizeof waiting / sizeof *waiting; i++)
        if (strcmp(name, waiting[i]) == 0)
            return 1;
    return 0;
}

/* What an entry points to: the loader has made an address of it, but not for each file. */
static const void *place_of(const struct dl_phdr_info *file, const ElfW(Dyn) *entry)
{
    ElfW(Addr) at = entry->d_un.d_ptr < file->dlpi_addr ? file->dlpi_addr + entry->d_un.d_ptr : entry->d_un.d_ptr;

    return (const void *)at;
}

/* The names that a file takes from others stand before those that it gives, which begin at a number in its hash table. */
static void see_names(const ElfW(Sym) *symbols, const char *names, const uint32_t *hash, struct seen *seen)
{
    uint32_t i;

    for (i = 1; i < hash[1]; i++)
        if (symbols[i].st_shndx == SHN_UNDEF && is_waiting(names + symbols[i].st_name))
            seen->waits = 1;
    seen->files++;
}

static int see_file(struct dl_phdr_info *file, size_t size, void *at)
{
    const ElfW(Dyn) *entry = NULL;
    const void *symbols = NULL, *names = NULL, *hash = NULL;
    struct seen *seen = at;
    int i, needs = 0;

    (void)size;
    for (i = 0; i < file->dlpi_phnum; i++)
        if (file->dlpi_phdr[i].p_type == PT_DYNAMIC)
            entry = (const ElfW(Dyn) *)(file->dlpi_addr + file->dlpi_phdr[i].p_vaddr);
    for (; entry && entry->d_tag != DT_NULL; entry++) {
        needs |= entry->d_tag == DT_NEEDED;
        if (entry->d_tag == DT_SYMTAB)
            symbols = place_of(file, entry);
        else if (entry->d_tag == DT_STRTAB)
            names = place_of(file, entry);
        else if (entry->d_tag == DT_GNU_HASH)
            hash = place_of(file, entry);
    }
    if (!needs)
        return 0;
    if (symbols && names && hash)
        see_names(symbols, names, hash, seen);
    else
        seen->waits = 1;
    return 0;
}

int xti_is_watched = 1;

static void look(void)
{
    struct seen seen = { 0, 0 };

    dl_iterate_phdr(see_file, &seen);
    /* A program without libraries doesn't tell what is in it. */
    xti_is_watched = seen.waits || seen.files == 0;
}

void xti_find_watchers(void)
{
    static pthread_once_t once = PTHREAD_ONCE_INIT;

    pthread_once(&once, look);
}
