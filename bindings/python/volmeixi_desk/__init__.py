"""The command `python3 -m volmeixi`: sheets in decimals, for people.

`texts` has the texts that the program `sheet` reads and prints, and matrices in decimals; `modes`
asks the proved calls for a form's modes; `show` and `plot` put them on paper; `command` reads the
command line. The standard library is all that it needs.
"""
