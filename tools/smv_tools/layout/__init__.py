"""The command `fmt`: the layout of a text, in which white space alone is changed."""
