/* A process that goes on in the background, and the file with its number. */
#ifndef EMULATOR_BACKGROUND_H
#define EMULATOR_BACKGROUND_H

/* Goes on as another process, whose session is its own. The one that called it waits until that one is ready, and ends
 * with status 0; where that one ends before, it ends with the same status. The answer is for background_ready. */
int background_begin(void);

/* Lets the first process end. Standard input, output and error are nothing from here on. */
void background_ready(int waiting);

/* Writes the number of this process to the file, in a line. */
void pid_write(const char *path);

#endif
