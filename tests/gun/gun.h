/* A gun on the bench: a host with the slave in it, whichever, at a line whose other end is the test.
 * The line is slow and sends by DMA; an interrupt comes after each instruction, where a trial wants
 * it. */
#ifndef GUN_H
#define GUN_H

#include "../host/rig.h"

/* What the host under test offers. */
struct gun {
    void (*start)(void);           /* power on */
    void (*once_around)(void);     /* its main loop, once */
    void (*receive)(uint8_t byte); /* a byte comes from the line */
    void (*trigger)(void);         /* its interrupt: reads a row of a table, and calls took_row */
    uint8_t *state;
    uint32_t unit, row, row_size; /* where in the settings the unit byte and that row are */
    uint32_t weight;              /* where in the measured values two bytes are that each event changes */
};
extern const struct gun gun;

/* The line towards the tool: DMA reads each byte only when it goes. */
void dma_send(const uint8_t *bytes, size_t count);
int dma_is_idle(void);
size_t dma_moves(uint8_t *to, size_t most); /* so many go now, at most */

/* What the interrupt has read. The trials write one byte all over the row: more than one is half. */
void took_row(uint8_t unit, const uint8_t *row, size_t size);

/* The gun is switched on; the line is quiet, and both CTRs are 0. */
void switch_on(void);

/* A moment: some bytes come and go, and the main loop goes around once. */
void turn(void);
void turns(int count);

/* So many bytes of noise come at once, a dropped message in every two. */
void babble(size_t count);

/* A command to the host; and what it is answered, behind whatever samples. */
void say(const char *format, ...);
void answers(const char *answer, const char *format, ...);
#define ANSWERS(...) (HERE(), answers(__VA_ARGS__))

/* The next packet, or 0 for none in many turns. Frame and CTR are checked. */
size_t next_packet(uint8_t packet[PACKET]);

void connect_and_unlock(void);
uint32_t seed_for(uint8_t resource);

/* What is on its way comes to its end and is forgotten; the slave's next CTR is 0, as after a
 * power-up. */
void line_settles(void);

/* One command, in the turns of which the host's interrupt comes after each instruction of its main
 * loop, unless it is masked; gives how often it came. */
unsigned long interrupted(const char *answer, const char *format, ...);
extern volatile int interrupts_masked;
void interrupts_on(void);
void interrupts_off(void);
extern volatile unsigned long interrupts_came;

/* The trials, and main's result: all of a bench, or the one that the words of its program name. */
struct trial {
    const char *name;
    void (*run)(void);
};
int trials_main(const struct trial *trials, size_t count, const char *name);

void trial_session(void); /* a whole session, with lists */
void trial_damage(void);  /* the state's mark is written over, at any moment */
void trial_keys(void);    /* after that, three more tries at a key */
void trial_reader(void);  /* an interrupt reads while a tool writes */
void trial_burst(void);   /* much comes at once, of which nothing is lost */

#endif
