"""PDL in plain Python: what a pipe means, as a sequence of threads and as a pipeline, cycle by cycle.

It is written from the description of the language (docs/language.md, docs/rules.md, docs/rules_of_locks.md,
docs/machine.md), and shares nothing with `pdl`. Read it in this order:

    words       numbers of a given width, and the operations on them
    tree        what a source text consists of
    forms       forms of the language that the program may take or not, each behind a switch
    syntax      from the text to the tree
    layout      stages, guards and paths: the tree laid out as a list of statements
    sequential  the threads run wholly one after another
    state       what the pipeline holds at the start of a cycle
    deeds       what a thread asks of the machine in a cycle
    moves       which threads move
    machine     what a cycle does
    files       images and delay files, and the lines that a run prints
    rules       which pipes are refused, with rule_names, rule_locks, rule_guesses and rule_advice
    sound       what holds in every state that a pipe can reach
    promises    what a whole run has to keep, and two runs that differ in guesses alone
"""
