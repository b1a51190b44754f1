"""Adapts sources of MACRO-11 to m11. tools/adapt is the command."""
