/* SPDX-License-Identifier: Apache-2.0 */
/* What cfetbl_calls.c makes: a line for each call, command and file of the sessions, which cfetbl_calls_lines.c has. */
#ifndef CFETBL_CALLS_H
#define CFETBL_CALLS_H

#include "cfe.h"

/* How long an application waits between two looks whether it is its turn, how long after a command to Table Services, until the table
 * task has done it, and how long after the end of an application, until Executive Services have cleaned up; in milliseconds. */
#ifndef CFETBL_CALLS_PAUSE
#define CFETBL_CALLS_PAUSE 5
#endif
#ifndef CFETBL_CALLS_COMMAND
#define CFETBL_CALLS_COMMAND 200
#endif
#ifndef CFETBL_CALLS_EXIT
#define CFETBL_CALLS_EXIT 3000
#endif

/* Where the number of the next line is kept over a reset. */
#ifndef CFETBL_CALLS_PLACE
#define CFETBL_CALLS_PLACE "/cf/cfetbl_calls.at"
#endif

/* The lines by their numbers, from 0 on, and NULL after the last one. A line that begins with + goes on with the line before. */
const char *CFETBL_CALLS_Line(uint32 Number);

/* The names of the applications by their numbers, from 0 on, and NULL after the last one. Application 0 sends the commands. */
const char *CFETBL_CALLS_App(uint32 Number);

/* The entry point of all of them. */
void CFETBL_CALLS_Main(void);

#endif
