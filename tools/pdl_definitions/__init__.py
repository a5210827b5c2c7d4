"""The definitions of specs/ as Python functions, so that they answer what the program is asked.

    lexer      the tokens of a definition
    reader     from these tokens to trees
    writer     from trees to Python
    library    what the standard library gives
    loaded     all definitions, each made when it is first called
    grammar    the grammar's relations, read as rules of an Earley parser
    rows       the rows of tests/
    answers    what the definitions answer to a row
"""
