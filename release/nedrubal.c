/*
 * The program `nedrubal`: its first word names one of the proved programs, which then runs in this process. What stands
 * here opens a file, answers -h and gives a status; no figure comes from it.
 *
 *     nedrubal evening|why [--strict] [FILE]
 *     nedrubal broadcast [--strict] [--from N] [FILE]
 *     nedrubal listen [--whole] [FILE]
 *     nedrubal exchange ID <TEXT
 *     nedrubal night DAY B M K0 RRCL0 RRCH0 K1 RRCL1 RRCH1 K2 RRCL2 RRCH2 [ID...] <TEXT
 *
 * A proved program always ends with 0, and says on standard error that it could not read or write, `night` which line
 * of its text is bad, or `listen --whole` that its input is not one whole stream. So its `write` is the one below, which
 * sees that: status 1. Status 2 says that the words are wrong or that FILE cannot be read. It also sees the lines that
 * are answered: with --strict, one that is refused or no call is status 3, and a message that `listen` refuses is
 * status 1.
 */
#include "arguments.h"
#include <errno.h>
#include <fcntl.h>
#include <stddef.h>
#include <string.h>
#include <sys/stat.h>
#include <sys/types.h>
#include <sys/wait.h>
#include <unistd.h>

#ifndef VERSION
#error VERSION is the text of the file VERSION
#endif

enum { COULD_NOT = 1, USAGE = 2, REFUSED = 3 };

/* `main` of each proved program, by the name that outside/release gives it. */
int nedrubal_evening(void);
int nedrubal_why(void);
int nedrubal_broadcast(void);
int nedrubal_listen(void);
int nedrubal_exchange(void);
int nedrubal_night(void);

/* What stands behind a program's name: --strict and a FILE, --from with a number between them, --whole and a FILE, or
   words that the program itself reads. It also reads --from with its number, and --whole. */
enum words { STRICT_FILE, STRICT_FROM_FILE, WHOLE_FILE, OWN_WORDS };

struct program {
    const char *name; /* behind a space */
    int (*run)(void);
    enum words words;
    const char *usage;
};

#define STRICT "With --strict the status is 3 where a line was refused or was no call.\n"

static const struct program programs[] = {
    { " evening", nedrubal_evening, STRICT_FILE,
      "usage: nedrubal evening [--strict] [FILE]\n"
      "Runs an evening on FILE, or on standard input. A line is a call and gets a line of answer.\n" STRICT },
    { " why", nedrubal_why, STRICT_FILE,
      "usage: nedrubal why [--strict] [FILE]\n"
      "Runs an evening on FILE, or on standard input. An evaluation is answered with what set its figures.\n" STRICT },
    { " broadcast", nedrubal_broadcast, STRICT_FROM_FILE,
      "usage: nedrubal broadcast [--strict] [--from N] [FILE]\n"
      "Runs an evening on FILE, or on standard input, and writes the messages that members are sent, in bytes.\n"
      "With --from the lines before the N-th are performed and not told.\n"
      STRICT },
    { " listen", nedrubal_listen, WHOLE_FILE,
      "usage: nedrubal listen [--whole] [FILE]\n"
      "Reads messages from FILE, or from standard input, and prints a line for each.\n"
      "The status is 1 where one is refused and, with --whole, where they are not one whole stream.\n" },
    { " exchange", nedrubal_exchange, OWN_WORDS,
      "usage: nedrubal exchange ID <TEXT\n"
      "Reads the exchange's text and prints the rows of security ID, as the end of an evaluate line takes them.\n" },
    { " night", nedrubal_night, OWN_WORDS,
      "usage: nedrubal night DAY B M K0 RRCL0 RRCH0 K1 RRCL1 RRCH1 K2 RRCL2 RRCH2 [ID...] <TEXT\n"
      "Reads the exchange's text and prints an evaluate line for each of its securities, then one without rows for\n"
      "each ID that the text does not have. A pair YM/YN may stand in place of each RRCL RRCH.\n"
      "The status is 1 where the text is bad: standard error says 15 and the line.\n" },
};
enum { PROGRAMS = sizeof programs / sizeof *programs };

static const char about[] =
    "usage: nedrubal PROGRAM [WORD]\n"
    "  evening [FILE]       runs an evening: a line is a call and gets a line of answer\n"
    "  why [FILE]           the same, where an evaluation is answered with what set its figures\n"
    "  broadcast [FILE]     the same, where the messages to members are written, in bytes\n"
    "  listen [FILE]        reads such messages, and prints a line for each\n"
    "  exchange ID <TEXT    the rows of one security in the exchange's text\n"
    "  night DAY.. <TEXT    an evaluate line for each security of the exchange's text\n"
    "  PROGRAM -h           what one program takes\n"
    "  --version            which release this is\n"
    "Without FILE a program reads standard input. The status is 0; 1 where it could not read or write, listen printed\n"
    "a refusal, the input of listen --whole is not one whole stream, or night's text is bad; 2 where the words are\n"
    "wrong or FILE cannot be read. With --strict behind evening, why or broadcast it is 3 where a line was refused or\n"
    "was no call.\n";

/* Writes a text whole, and says whether it could. */
static int say(int to, const char *text)
{
    size_t left = strlen(text);
    while (left > 0) {
        ssize_t wrote = write(to, text, left);
        if (wrote < 0 && errno == EINTR)
            continue;
        if (wrote <= 0)
            return 0;
        text += wrote;
        left -= (size_t)wrote;
    }
    return 1;
}

static int answer(const char *text)
{
    if (say(STDOUT_FILENO, text))
        return 0;
    say(STDERR_FILENO, "nedrubal: could not write\n");
    return COULD_NOT;
}

/* One line that names the fault: BEFORE 'WORD' AFTER. `who` is a space and the name of a program, or nothing. */
static int refuse(const char *who, const char *before, const char *word, const char *after)
{
    char line[512];
    size_t length = 0;
    const char *part[] = { "nedrubal", who, ": ", before, "'", word, "'", after, "; see nedrubal", who, " -h" };
    /* A word may hold anything and have any length: the line stays one line. */
    for (size_t i = 0; i < sizeof part / sizeof *part; i++)
        for (const char *at = part[i]; *at && length < sizeof line - 2; at++)
            line[length++] = (unsigned char)*at < ' ' || *at == 127 ? '?' : *at;
    line[length++] = '\n';
    line[length] = 0;
    say(STDERR_FILENO, line);
    return USAGE;
}

static int is_closed(int stream)
{
    return fcntl(stream, F_GETFD) < 0;
}

static int stream_is_closed(const struct program *program, const char *what)
{
    say(STDERR_FILENO, "nedrubal");
    say(STDERR_FILENO, program->name);
    say(STDERR_FILENO, what);
    return COULD_NOT;
}

/* ---- what the proved program does */

/* What it has said on standard error: nothing, that it could not or that a text is bad, or a usage. */
static int said;

/* Which lines that it prints are looked for, and whether one was found. */
static enum { ANY, NOT_ACCEPTED, REFUSED_MESSAGE } looked_for;
static int found;

/* An accepted line is answered with 0 in front, whatever else with another number or a word. */
static void look_at(const char *text, size_t length)
{
    static const char word[] = "refused ";
    static size_t place; /* in the line */
    static int is_word;
    for (size_t i = 0; i < length; i++) {
        if (looked_for == NOT_ACCEPTED && place == 0 && text[i] != '0')
            found = 1;
        is_word = (place == 0 || is_word) && place < sizeof word - 1 && text[i] == word[place];
        if (looked_for == REFUSED_MESSAGE && is_word && place == sizeof word - 2)
            found = 1;
        place = text[i] == '\n' ? 0 : place + 1;
    }
}

/* Where the messages are written, the same lines are heard by `evening` in a process of its own, whose answers are
   looked at and go nowhere: a pipe brings it what is read. */
static int is_judge;
static int to_judge = -1;

/* In place of `write` in the proved programs. */
ssize_t nedrubal_write(int to, const void *from, size_t length)
{
    static const char usage[] = "usage:";
    if (to == STDERR_FILENO && said == 0) {
        size_t known = sizeof usage - 1;
        said = length >= known && memcmp(from, usage, known) == 0 ? USAGE : COULD_NOT;
    }
    ssize_t wrote = is_judge ? (ssize_t)length : write(to, from, length);
    if (to == STDOUT_FILENO && wrote > 0)
        look_at(from, (size_t)wrote);
    return wrote;
}

/* In place of `read`. */
ssize_t nedrubal_read(int from, void *to, size_t length)
{
    ssize_t came = read(from, to, length);
    for (ssize_t done = 0; to_judge >= 0 && done < came;) {
        ssize_t more = write(to_judge, (const char *)to + done, (size_t)(came - done));
        if (more < 0 && errno == EINTR)
            continue;
        if (more <= 0)
            to_judge = -1;
        else
            done += more;
    }
    return came;
}

/* In place of the call by which a program starts: it would have a write to a pipe that nobody reads fail, and here that
   ends the process, as it does others. */
long nedrubal_signal(int number, long how)
{
    (void)number;
    (void)how;
    return 0;
}

/* Starts the judge, and says whether it could. */
static int call_judge(pid_t *judge)
{
    int ends[2];
    if (pipe(ends) != 0)
        return 0;
    *judge = fork();
    if (*judge < 0)
        return 0;
    if (*judge == 0) {
        is_judge = 1;
        looked_for = NOT_ACCEPTED;
        close(ends[1]);
        if (dup2(ends[0], STDIN_FILENO) < 0)
            _exit(COULD_NOT);
        nedrubal_evening();
        _exit(said ? COULD_NOT : found ? REFUSED : 0);
    }
    close(ends[0]);
    to_judge = ends[1];
    return 1;
}

/* What the judge says when there is no line more. */
static int judged(pid_t judge)
{
    int status;
    close(to_judge);
    while (waitpid(judge, &status, 0) < 0)
        if (errno != EINTR)
            return COULD_NOT;
    return WIFEXITED(status) ? WEXITSTATUS(status) : COULD_NOT;
}

static int run_strictly(const struct program *program)
{
    if (program->run != nedrubal_broadcast) {
        looked_for = NOT_ACCEPTED;
        int status = program->run();
        return said ? said : found ? REFUSED : status;
    }
    pid_t judge;
    if (!call_judge(&judge)) {
        say(STDERR_FILENO, "nedrubal broadcast: there is no second process for --strict\n");
        return COULD_NOT;
    }
    int status = program->run();
    int verdict = judged(judge);
    return said ? said : status ? status : verdict;
}

/* Puts a file on standard input: a file, a pipe or a terminal that can be read. */
static int put_on_input(const char *name)
{
    struct stat is;
    int file;
    do
        file = open(name, O_RDONLY);
    while (file < 0 && errno == EINTR);
    if (file < 0 || fstat(file, &is) != 0)
        return 0;
    if (!S_ISREG(is.st_mode) && !S_ISFIFO(is.st_mode) && !S_ISCHR(is.st_mode))
        return 0;
    if (file == STDIN_FILENO)
        return 1;
    if (dup2(file, STDIN_FILENO) < 0)
        return 0;
    close(file);
    return 1;
}

/* words[0] is the program's name. */
static int run(const struct program *program, int count, char **words)
{
    if (count > 1 && (strcmp(words[1], "-h") == 0 || strcmp(words[1], "--help") == 0))
        return answer(program->usage);
    if (is_closed(STDOUT_FILENO))
        return stream_is_closed(program, ": could not write: standard output is closed\n");
    int is_strict = 0;
    /* What the program itself reads: its name, and the option that is its own. */
    char *own[] = { words[0], NULL, NULL };
    int own_count = 1;
    if (program->words != OWN_WORDS) {
        int has_strict = program->words == STRICT_FILE || program->words == STRICT_FROM_FILE;
        if (count > 1 && has_strict && strcmp(words[1], "--strict") == 0) {
            is_strict = 1;
            words++;
            count--;
        }
        if (count > 1 && program->words == WHOLE_FILE && strcmp(words[1], "--whole") == 0) {
            own[own_count++] = words[1];
            words++;
            count--;
        }
        if (count > 1 && program->words == STRICT_FROM_FILE && strcmp(words[1], "--from") == 0) {
            if (count < 3)
                return refuse(program->name, "the number of a line stands behind ", words[1], "");
            own[1] = words[1];
            own[2] = words[2];
            own_count = 3;
            words += 2;
            count -= 2;
        }
        if (count > 1 && words[1][0] == '-' && words[1][1] != 0)
            return refuse(program->name, "there is no option ", words[1], "");
        if (count > 2)
            return refuse(program->name, "it takes one FILE at most, and here is ", words[2], " too");
        if (count > 1 && !put_on_input(words[1]))
            return refuse(program->name, "", words[1], " is no file that can be read");
    }
    if (is_closed(STDIN_FILENO))
        return stream_is_closed(program, ": could not read: standard input is closed\n");
    if (program->words == OWN_WORDS)
        give_arguments(count, words);
    else
        give_arguments(own_count, own);
    if (is_strict)
        return run_strictly(program);
    if (program->words == WHOLE_FILE)
        looked_for = REFUSED_MESSAGE;
    int status = program->run();
    return said ? said : found ? COULD_NOT : status;
}

int main(int argc, char **argv)
{
    if (argc < 2) {
        say(STDERR_FILENO, "nedrubal: which program? see nedrubal -h\n");
        return USAGE;
    }
    const char *first = argv[1];
    int is_help = strcmp(first, "help") == 0;
    if (is_help && argc == 3)
        first = argv[2];
    for (int i = 0; i < PROGRAMS; i++)
        if (strcmp(first, programs[i].name + 1) == 0)
            return is_help ? answer(programs[i].usage) : run(&programs[i], argc - 1, argv + 1);
    int is_about = strcmp(first, "help") == 0 || strcmp(first, "-h") == 0 || strcmp(first, "--help") == 0;
    int is_version = strcmp(first, "--version") == 0;
    if (!is_about && !is_version)
        return refuse("", first[0] == '-' ? "there is no option " : "there is no program ", first, "");
    if (argc > 2)
        return refuse("", "nothing stands behind ", first, "");
    return answer(is_about ? about : "nedrubal " VERSION "\n");
}
