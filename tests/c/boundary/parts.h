/* The parts of the test, each in a file of its name. */
#ifndef PARTS_H
#define PARTS_H

void searches(void);
void wild(void);
void drawn(void);
void scratches(void);
void rows(void);
void values(void);
void eights(void);
void lists(void);
void drawn_files(void);
void sitting(void);
void drawn_sittings(void);
void sets(void);
void drawn_sets(void);
void pointers(void);
void large(void);
void header(void);

#endif
