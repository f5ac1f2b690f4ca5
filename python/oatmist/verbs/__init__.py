"""The verbs of the command, one module each.

A verb's module has its explanation as docstring, `SUMMARY` (one line for the table of verbs), `arguments(parser)`, which tells the parser
its arguments, and `run(given)`, which does the work and gives the exit status of `manners`. A new module is a new verb.
"""
