"""Tests of the shell and of what it is made of."""
