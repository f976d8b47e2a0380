/* What the programs call of the system beside the C library: their arguments, and errno. The proofs assume the
 * contracts in rattle/os/src/c.rt of the Rattle kit, which has this only as objects for x86-64.
 *
 * The kit's clang compiles it for each processor, and has no headers. */
typedef __SIZE_TYPE__ size_t;
typedef __PTRDIFF_TYPE__ ssize_t;

/* What errno.h makes errno of. */
int *__errno_location(void);

size_t rattle_arg_count(void);
ssize_t rattle_arg(size_t number, unsigned char *bytes, size_t room);
int rattle_errno(void);
void rattle_set_errno(int number);

static int count;
static char **words;

/* glibc passes main's arguments to a constructor. */
__attribute__((constructor)) static void keep(int argc, char **argv)
{
    count = argc;
    words = argv;
}

size_t rattle_arg_count(void)
{
    return (size_t)count;
}

/* Writes an argument and returns its length; -1 if there is none, -2 if it has more bytes than there is room. */
ssize_t rattle_arg(size_t number, unsigned char *bytes, size_t room)
{
    size_t length;

    if (number >= (size_t)count || words[number] == 0)
        return -1;
    for (length = 0; words[number][length] != 0; length++) {
        if (length == room)
            return -2;
        bytes[length] = (unsigned char)words[number][length];
    }
    return (ssize_t)length;
}

int rattle_errno(void)
{
    return *__errno_location();
}

void rattle_set_errno(int number)
{
    *__errno_location() = number;
}
