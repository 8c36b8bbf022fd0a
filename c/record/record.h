/* SPDX-License-Identifier: Apache-2.0 */
/* For a test that sends commands, uplinks files or sets the time beside an application whose calls are recorded. */
#ifndef RECORD_H
#define RECORD_H

/* Writes a line of session text into the log, as `ground LOAD /cf/new.tbl`, where the test does what it says. */
void record_line(const char *line);

/* With RECORD_ALONE: which application makes the calls from now on, from 1 to 16. */
void record_app(int number);

/* With RECORD_ALONE: the handles of an application are gone, as after its end, or all handles with 0, as after a reset. */
void record_forget(int number);

/* Has the log go on that is there, as after a reset of the processor: before its first line. */
void record_go_on(void);

/* Writes the last line of the log. */
void record_end(void);

#endif
