/* The papers of versions 04 to 07 in examples/, and one of a printed class
 * report, command by command. */
#ifndef MODEL_EXAMPLES_H
#define MODEL_EXAMPLES_H

/* A limit for the day and one for the month. */
void day_and_month(void);

/* Weeks from Monday and from Sunday, over the end of a year. */
void weeks(void);

/* Dates before the last one, and the issuer's approval that makes one right. */
void date_error(void);

/* Firsts that are refused begin no cycle. */
void refused_dates(void);

/* A CPACE card: cashback, and slots that are closed to a CVM. */
void cpace_sitting(void);

/* A CPACE card whose file asks for the interface and for what it has spent. */
void interface_selection(void);

/* A fresh card takes three commands in one template. */
void script_done(void);

/* The second of three commands fails, and what comes after. */
void script_fails(void);

/* Values and limits written between First and Second. */
void script_between(void);

/* Scripts that are refused, and one without a body. */
void script_refusals(void);

/* The printed sitting with a log of two records: the first one has gone. */
void log_ring(void);

/* Of the approvals only those that no issuer gave, and no decline. */
void log_offline_only(void);

/* An entry that reaches past Second's data, though nothing is ever logged. */
void log_past_data(void);

/* A class's paper of version 01 that ends in 9: a TC of 0 in 0840, a Z3
 * approval of 700 in 0978, an online approval of 50 in 0392, a refusal 3. */
void class_paper(void);

#endif
