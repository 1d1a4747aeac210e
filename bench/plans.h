/* Plans for the verdict, with what came back: drawn good courses, and damage done to them. */
#ifndef PLANS_H
#define PLANS_H

#include "plain.h"

#define PLAN_ROOM 40 /* the most records of a case */

/* A plan, its returned records, and these as bytes. */
typedef struct {
    plain_plan plan;
    unsigned count;
    plain_record records[PLAN_ROOM];
    size_t n;
    uint8_t bytes[PLAIN_RECORD * PLAN_ROOM];
} Case;

/* A plan and a course that follows all rules, somewhere in time, now and then at its very beginning or end. */
void good_course(Case *c);
/* Damages the case in one to three ways, often at the same record, lays its bytes, and one time in eight damages those. */
void damage(Case *c);
/* The records as bytes, whatever their fields are. */
void lay(Case *c);

/* Good answers to the plan's commands, and a Q that fits. */
void add_answers(Case *c);
/* Adds one to five records that no command asked for. */
void leave_over(Case *c);
/* Puts that record at the distance from the one before; later ones and Q move along. */
void space(Case *c, unsigned at, unsigned distance);
/* The time of the word before that place. */
uint64_t before(const Case *c, unsigned at);

#endif
