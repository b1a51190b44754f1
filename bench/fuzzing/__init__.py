"""Calls of the programs and the scripts with damaged files."""
