/* What arguments.c hands to a proved program, in place of those of the whole program: the first is its name. */
#ifndef ARGUMENTS_H
#define ARGUMENTS_H

void give_arguments(int argc, char **argv);

#endif
