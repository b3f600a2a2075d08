"""A second reading of the rules: what a run of opensolver must print and save, worked out plainly and without the program's code.

A text is kept as its bytes in UTF-8, each byte as one character (decoded as Latin-1), so that places are places of bytes. Numbers are
`fractions.Fraction`; each operation says where its result doesn't fit. Nothing here is quick, and nothing is kept from one command to
the next but the contents, the names and the open searches.
"""
