"""Job files as readable text: the modules behind tools/job.

    wrong, ranges     what is said where something is wrong; numbers that must lie in a range
    layout            sizes, ranges, formats, flags and the files under the settings
    instructions      the table of instructions
    fields            the kinds of field, to and from bytes
    cells             the numbers of a row, as text and back
    words             issued words, as text and back
    settings          the settings, as text and back
    text              text to a job file
    refusals          the numbers that a job may be refused with, and their words
    record, effects   the control record and marks; what each kind of instruction does to them
    rules             the refusal that a job meets
    explaining        what one refusal means for a job
    listing           a job file as text
    cli               the commands

The rules are those of document 01 and of orders 1, 3, 4, 6 and 8 of document 02. Where something new goes:

    an instruction    a row in instructions; for a new kind, a class in effects
    a kind of field   a line in fields, a verb in text, a line in listing; what it needs and does, in rules
    a refusal         a row in refusals, and its rule in the order of rules
    a settings flag   a name or a switch in layout, and what it changes, in rules or record
"""
