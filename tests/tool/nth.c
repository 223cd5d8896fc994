/* A library that is loaded before the C library and stops the program at its n-th call that writes: making a file or a folder, writing,
   having bytes reach the device, renaming, removing. NTH is n, from 1; HOW says how:
     before  the process is killed (SIGKILL) and the call not made      after  it is made, and the process killed
     torn    a write puts half of its bytes, then the process is killed (any other call: as before)
     full    the call fails with ENOSPC, and so does each later one that would need room
     once    the call fails with EIO, and the later ones do not
   Without NTH it does nothing but count; the count goes to descriptor 8. It needs no header: compile it with the kit's clang. */
typedef unsigned long size;
extern char *getenv(const char *);
extern int *__errno_location(void);

static long call(long n, long a, long b, long c) {
    long r;
    __asm__ volatile("syscall" : "=a"(r) : "a"(n), "D"(a), "S"(b), "d"(c) : "rcx", "r11", "memory");
    return r;
}

static long call4(long n, long a, long b, long c, long d) {
    long r;
    register long r10 __asm__("r10") = d;
    __asm__ volatile("syscall" : "=a"(r) : "a"(n), "D"(a), "S"(b), "d"(c), "r"(r10) : "rcx", "r11", "memory");
    return r;
}

enum { WRITE = 1, CLOSE = 3, GETPID = 39, FSYNC = 74, RENAME = 82, MKDIR = 83, UNLINK = 87, KILL = 62, OPENAT = 257 };
enum { EIO = 5, ENOSPC = 28 };

static long number(const char *s) {
    long n = 0;
    for (; s && *s >= '0' && *s <= '9'; s++) n = 10 * n + (*s - '0');
    return n;
}

static long calls, nth = -1;
static char how = 0;

static void begin(void) {
    if (nth >= 0) return;
    nth = number(getenv("NTH"));
    const char *h = getenv("HOW");
    how = h ? h[0] : 0; /* b, a, t, f, o */
}

static void end(void) { call(KILL, call(GETPID, 0, 0, 0), 9, 0); }

/* Counts a call and answers whether it is the one. */
static int here(void) {
    begin();
    return ++calls == nth;
}

static long answer(long r) {
    if (r < 0 && r > -4096) {
        *__errno_location() = (int)-r;
        return -1;
    }
    return r;
}

/* A call that is no write: `room` says whether a full disk stops it. */
static long other(int room, long n, long a, long b, long c, long d) {
    if (here()) {
        if (how == 'b' || how == 't') end();
        if (how == 'o') return answer(-EIO);
        if (how == 'f' && room) return answer(-ENOSPC);
        if (how == 'a') {
            call4(n, a, b, c, d);
            end();
        }
    }
    if (how == 'f' && nth && calls > nth && room) return answer(-ENOSPC);
    return answer(call4(n, a, b, c, d));
}

long write(int fd, const void *bytes, size n) {
    if (here()) {
        if (how == 't') call(WRITE, fd, (long)bytes, (long)(n / 2));
        if (how == 'a') call(WRITE, fd, (long)bytes, (long)n);
        if (how == 'b' || how == 't' || how == 'a') end();
        if (how == 'o') return answer(-EIO);
        /* a disk that is getting full takes a part first */
        if (how == 'f' && fd > 3) return n > 1 ? answer(call(WRITE, fd, (long)bytes, (long)(n / 2))) : answer(-ENOSPC);
    }
    if (how == 'f' && nth && calls > nth && fd > 3) return answer(-ENOSPC);
    return answer(call(WRITE, fd, (long)bytes, (long)n));
}

/* the name by which the kit's own C calls it */
long __write(int fd, const void *bytes, size n) { return write(fd, bytes, n); }

int open(const char *path, int flags, ...) {
    /* a file that may be made (O_CREAT); its mode is what the program's own code asks for */
    if (flags & 0100) return (int)other(1, OPENAT, -100, (long)path, flags, 0666);
    return (int)answer(call4(OPENAT, -100, (long)path, flags, 0));
}

int fsync(int fd) { return (int)other(0, FSYNC, fd, 0, 0, 0); }
int rename(const char *a, const char *b) { return (int)other(0, RENAME, (long)a, (long)b, 0, 0); }
int unlink(const char *a) { return (int)other(0, UNLINK, (long)a, 0, 0, 0); }
int mkdir(const char *a, unsigned mode) { return (int)other(1, MKDIR, (long)a, mode, 0, 0); }

__attribute__((destructor)) static void report(void) {
    char digits[24];
    int k = 24;
    long n = calls;
    digits[--k] = '\n';
    do {
        digits[--k] = (char)('0' + n % 10);
        n /= 10;
    } while (n);
    call(WRITE, 8, (long)(digits + k), 24 - k);
}
