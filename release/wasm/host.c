/*
 * What the proved programs call of the C library and the system beside `read`, `write` and their words (INTERFACE.md):
 * a module has it itself, and so asks its host for nothing more. It has no signals, and its errno says of a read or a
 * write that answers -1 no more than that it could not be done.
 */
enum { INPUT_OR_OUTPUT_ERROR = 5 };

static int error = INPUT_OR_OUTPUT_ERROR;

int rattle_errno(void)
{
    return error;
}

void rattle_set_errno(int number)
{
    error = number;
}

/* A program starts by saying that a write to a pipe that nobody reads is to fail, and not to end it. */
long long __sysv_signal(int number, long long how)
{
    (void)number;
    (void)how;
    return 0;
}
