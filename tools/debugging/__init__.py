"""m11-debug: a debugger that goes forwards and backwards through a run, with the states that m11-trace gives."""
