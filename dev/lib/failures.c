/* Takes the place of some calls of the C library, and makes them fail.

   REFUSED: the number of the allocation that is refused, counted from 1. A byte is then written to
   the descriptor MARK.
   TAKEN: how many bytes standard output takes before it breaks.
   PIECE: how many bytes standard output takes at most of one write. */
void *__libc_malloc(unsigned long), *__libc_realloc(void *, unsigned long);
char *getenv(const char *);
int *__errno_location(void);
long atol(const char *), __write(int, const void *, unsigned long);

/* No bound, and the error of a broken device. */
enum { NONE = -1, EIO = 5 };

static long count, taken;

static long number_in(const char *name)
{
    const char *text = getenv(name);
    return text ? atol(text) : NONE;
}

static int is_refused(void)
{
    long number = __atomic_add_fetch(&count, 1, __ATOMIC_SEQ_CST);
    return number == number_in("REFUSED") && __write(number_in("MARK"), "x", 1) == 1;
}

void *malloc(unsigned long size) { return is_refused() ? 0 : __libc_malloc(size); }

void *realloc(void *old, unsigned long size)
{
    return is_refused() ? 0 : __libc_realloc(old, size);
}

long write(int file, const void *bytes, unsigned long size)
{
    long most = number_in("TAKEN"), piece = number_in("PIECE"), done;
    if (file != 1)
        return __write(file, bytes, size);
    if (most != NONE && size > 0 && taken >= most) {
        *__errno_location() = EIO;
        return -1;
    }
    if (most != NONE && size > (unsigned long)(most - taken))
        size = most - taken;
    if (piece != NONE && size > (unsigned long)piece)
        size = piece;
    done = __write(file, bytes, size);
    if (done > 0)
        taken += done;
    return done;
}
