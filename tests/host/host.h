/* The tests of the slave as a C host sees it, one function for each part. */
#ifndef HOST_H
#define HOST_H

#include "probe.h"

#include <string.h>

#define COUNT(table) (sizeof(table) / sizeof(table)[0])

void test_calls(void);          /* the calls themselves: sizes, states, NULL, numbers 8 to 10 */
void test_line(void);           /* bytes to messages: numbers 0, 3, 4, 5, 7 */
void test_session(void);        /* whole messages: numbers 1, 2, 6; a session to its end; keys */
void test_shut(void);           /* three wrong keys, and it stays shut until a power-up */
void test_commands(void);       /* every command's checks, in order; a refusal changes nothing */
void test_short_download(void); /* writing at an address of its own */
void test_memory(void);         /* reading and writing, at memories of any length */
void test_pool(void);           /* lists, ODTs and entries allocated and freed: four commands */
void test_shapes(void);         /* lists of any shape at work: started, sampled, sent */
void test_lists(void);          /* lists: set up, selected, started, stopped */
void test_events(void);         /* events and slots: samples, whose turn it is */
void test_state(void);          /* the state's bytes: how each value reads, what is written */
void test_started(void);        /* lists that say started, though no start would be done */
void test_bench(void);          /* the bench sheet, byte for byte */
void test_several(void);        /* several slaves in one program; a copy of a state is one too */
void test_guns(void);           /* many guns at one host, by slices: none depends on another */
void test_slices(void);         /* xcp_receive is xcp_receive_byte repeated, for every cut */
void test_longest_slice(void);  /* and of more than 4 GB it takes so much */

/* Situations, each from a power-up with the same memories. */
void powered(struct rig *r);          /* no session */
void connected(struct rig *r);        /* a session, both resources locked */
void unlocked(struct rig *r);         /* both unlocked; MTA and pointer unset, no lists */
void freed(struct rig *r);            /* unlocked; after FREE_DAQ */
void no_odts(struct rig *r);          /* two lists, and no more */
void no_entries(struct rig *r);       /* two lists; the second has three ODTs, without entries */
void half_allocated(struct rig *r);   /* two ODTs and one; only the very first has an entry */
void half_running(struct rig *r);     /* and the list of that entry runs */
void allocated(struct rig *r);        /* unlocked; four lists of two ODTs of sixteen entries */
void shut(struct rig *r);             /* a session after three wrong keys: no seed any more */
void closed_waiting(struct rig *r);   /* DISCONNECT's answer still waits */
void busy(struct rig *r);             /* all settings in use: see situations.c */

#endif
