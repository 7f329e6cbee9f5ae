/*
 * The boundary between C and the proved calls of include/mitongory.h: what no proof covers. Every function with every
 * refusal, empty buffers, the largest numbers, and what every buffer holds after each call (lend.h).
 *
 * The last line is the number of checks; the exit status is 1 where one failed or could not be made.
 */
#include "check.h"
#include "papers.h"
#include "parts.h"

int main(void)
{
    pack_papers();
    searches();
    wild();
    drawn();
    scratches();
    rows();
    values();
    eights();
    lists();
    sitting();
    drawn_sittings();
    drawn_files();
    sets();
    drawn_sets();
    pointers();
    large();
    header();
    return end_of_checks();
}
