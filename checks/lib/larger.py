"""A program of several C files that is made for the checks: each file includes many headers, and
uses other types of them."""

# headers, each with types of it that a larger program uses
USED = {
    "aio.h": ["struct aiocb"],
    "arpa/inet.h": ["struct in_addr"],
    "complex.h": ["double complex"],
    "ctype.h": ["wint_t"],
    "dirent.h": ["struct dirent", "DIR *"],
    "elf.h": ["Elf64_Ehdr", "Elf32_Sym"],
    "fcntl.h": ["struct flock"],
    "fenv.h": ["fenv_t"],
    "ftw.h": ["struct FTW"],
    "glob.h": ["glob_t"],
    "grp.h": ["struct group"],
    "inttypes.h": ["imaxdiv_t", "uintmax_t"],
    "link.h": ["struct link_map", "struct dl_phdr_info"],
    "locale.h": ["struct lconv"],
    "math.h": ["float_t"],
    "mqueue.h": ["struct mq_attr"],
    "net/if.h": ["struct ifreq"],
    "netdb.h": ["struct addrinfo", "struct hostent"],
    "netinet/in.h": ["struct sockaddr_in6", "struct ip_mreq"],
    "netinet/ip.h": ["struct iphdr"],
    "netinet/tcp.h": ["struct tcphdr"],
    "poll.h": ["struct pollfd"],
    "pthread.h": ["pthread_mutex_t", "pthread_cond_t", "pthread_attr_t"],
    "pwd.h": ["struct passwd"],
    "regex.h": ["regex_t", "regmatch_t"],
    "sched.h": ["struct sched_param", "cpu_set_t"],
    "search.h": ["ENTRY", "VISIT"],
    "semaphore.h": ["sem_t"],
    "setjmp.h": ["jmp_buf"],
    "signal.h": ["struct sigaction", "siginfo_t", "stack_t"],
    "spawn.h": ["posix_spawnattr_t"],
    "stdatomic.h": ["atomic_flag"],
    "stdio.h": ["FILE", "fpos_t"],
    "stdlib.h": ["ldiv_t"],
    "sys/epoll.h": ["struct epoll_event"],
    "sys/ipc.h": ["struct ipc_perm"],
    "sys/mman.h": ["off_t"],
    "sys/resource.h": ["struct rusage"],
    "sys/select.h": ["fd_set"],
    "sys/sem.h": ["struct sembuf"],
    "sys/shm.h": ["struct shmid_ds"],
    "sys/socket.h": ["struct msghdr"],
    "sys/stat.h": ["struct stat"],
    "sys/statvfs.h": ["struct statvfs"],
    "sys/time.h": ["struct itimerval"],
    "sys/times.h": ["struct tms"],
    "sys/un.h": ["struct sockaddr_un"],
    "sys/utsname.h": ["struct utsname"],
    "termios.h": ["struct termios"],
    "time.h": ["struct tm", "timer_t"],
    "ucontext.h": ["ucontext_t"],
    "unistd.h": ["pid_t"],
    "utime.h": ["struct utimbuf"],
    "wchar.h": ["mbstate_t"],
    "wctype.h": ["wctrans_t"],
}
PARTS = 12
# a file of it: a structure that others declare, one of a name that others define otherwise, and
# types in a function
PART = """
enum level_{n} {{ LOW_{n} = -{n}, HIGH_{n} = 1 << {n} }};
struct node_{next};
struct local {{ char first; {locals} }} local_{n};
typedef int (*call_{n})(struct node_{n} *, const struct node_{next} *, size_t, ...);
typedef struct node_{n} {{
    struct node_{next} *next;
    struct shared shared[{n} + 1];
    union {{ uint64_t whole; struct {{ uint16_t low, high; }}; enum level_{n} level; }};
    unsigned of_few : {n} + 1, of_more : 31 - {n};
    _Bool known : 1;
    double rows[{n} + 1][3];
    call_{n} call;
    const volatile struct local *const local;
    struct {{ union word *restrict words; struct node_{n} **all; }} inner[2];
    char rest[];
}} node_{n}_type;
node_{n}_type *node_{n};
long work_{n}(const node_{n}_type *node, unsigned char (*bytes)[{n} + 5])
{{
    struct seen_{n} {{
        const char *text;
        int times[{n} + 1];
        struct seen_{n} *next;
    }} seen = {{ 0 }};
    return sizeof(*node) + (*bytes)[0] + seen.times[0];
}}
"""
SHARED = """union word { int32_t whole; struct { uint8_t first, second; uint16_t rest; } parts; };
struct shared {
    struct shared *previous, *next;
    union word word;
    enum { OFF, ON } mode;
    void (*done)(struct shared *);
};
"""


def larger():
    """The files of a program of several files that include many headers, and use other types of
    them each."""
    with open("shared.h", "w") as file:
        file.write(
            "#define _GNU_SOURCE\n"
            + "".join(f"#include <{header}>\n" for header in ["stddef.h", "stdint.h", *USED])
            + SHARED
        )
    every = [name for names in USED.values() for name in names]
    for n in range(PARTS):
        locals_ = " ".join(f"long member_{i};" for i in range(n % 5))
        uses = "".join(
            f"{name} *used_{n}_{i};\n"
            for i, name in enumerate(every)
            if i % PARTS == n or i % 3 == n % 3
        )
        with open(f"part{n}.c", "w") as file:
            file.write(
                '#include "shared.h"\n'
                + PART.format(n=n, next=(n + 1) % PARTS, locals=locals_)
                + uses
            )
            if n == 0:
                file.write("int main(void) { return 0; }\n")
    return [f"part{n}.c" for n in range(PARTS)]
