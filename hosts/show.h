/* The command that shows any sheet, which both programs have. */
#ifndef SHOW_H
#define SHOW_H

int show_sheets(char **words);

#endif
