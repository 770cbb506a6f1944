"""The independent model of the rules: a second reading of each, from the documents and in another form than the definitions.

The checks compare the program with it. Nothing here runs the program, and nothing here was made from its code.
"""
