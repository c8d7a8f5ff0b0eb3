"""The modules that the other packages share: names, layouts, stocktakes and their tables, the text
and files of others, and the start of a program."""
