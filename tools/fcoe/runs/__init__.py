"""Runs of the program over captures: ports and configuration, journals, the fabric, and what the switch of the captures answered beside it."""
