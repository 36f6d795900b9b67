/* What the two files of the example share. */
#ifndef FINDINGS_H
#define FINDINGS_H

/* Prints a finding, and counts it if it is not as it should be. */
void expect(int holds, const char *finding);

/* Looks at the texts of the refusals. */
void check_texts(void);

#endif
