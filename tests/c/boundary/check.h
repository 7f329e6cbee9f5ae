/* Checks are counted, and those that fail are said. */
#ifndef CHECK_H
#define CHECK_H

/* Says what the next checks are about. */
void about(const char *name);

/* One check; `part` says of what. */
void check(int good, const char *part);

/* Ends the program with exit status 1 and a message, where a check cannot be made. No check is ever left out. */
void cannot(const char *why);

/* Prints the number of checks, or how many failed, and gives the exit status of the program. */
int end_of_checks(void);

#endif
