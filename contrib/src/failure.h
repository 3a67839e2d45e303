/* How the programs say why they end. */
#ifndef FAILURE_H
#define FAILURE_H

/* The program's name, for its messages. */
extern const char *program;

/* Says `PROGRAM: SUBJECT: REASON` on standard error and ends with status 1. */
_Noreturn void fail(const char *subject, const char *reason);

/* Prints how the program is called, and what it does, and ends. */
_Noreturn void end_with_help(const char *usage, const char *help);

/* Says how the program is called and ends with status 2. */
_Noreturn void end_with_usage(const char *usage);

/* Bytes that a reason takes at most. */
enum { REASON_SIZE = 512 };

/*
 * Formats a reason, cut between characters where it is too long. What could lead a terminal or end a line becomes
 * spaces, since names and addresses in it are a stranger's.
 */
void reason_format(char reason[REASON_SIZE], const char *format, ...) __attribute__((format(printf, 2, 3)));

#endif
