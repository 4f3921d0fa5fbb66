/* Writes calls as a script with its configuration, which the program runs then: it must reply and hand over what the calls did. */
#ifndef FUZZ_SCRIPT_H
#define FUZZ_SCRIPT_H

#include <stdio.h>

#include "make.h"

/* The files of a script in the folder FUZZ_CALLS_FOLDER, and what the program must write. */
struct script {
    const struct setup *setup;
    FILE *lines;    /* script */
    FILE *capture;  /* capture.wav: what interrupts brought */
    FILE *data;     /* data.wav: what writes brought that are too long for a line */
    FILE *replies;  /* replies */
    FILE *device;   /* device */
    uint32_t events;
    size_t data_length;
    size_t captured;
    bool is_whole;  /* all calls so far are lines */
};

/* Begins a script of a setup. Answers false where no configuration has it, or no program is named by FUZZ_CALLS_PROGRAM. */
bool begin_script(struct script *script, const struct setup *setup);

/* Writes a call that was answered so, with what it brought and got. One that no engine takes is no line, and no question is. */
void put_call(struct script *script, const struct call *call, int64_t number, const struct brought *brought, const struct got *got);

/* Ends the script. Answers false where the program replies or hands over something else; the files are left then. */
bool end_script(struct script *script);

#endif
