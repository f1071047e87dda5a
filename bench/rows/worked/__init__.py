"""Rows of cores: the worked runs of the machine, read out of the files in which they are proved of the definitions, and programs
that are run in rounds."""
