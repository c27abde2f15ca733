"""Exchanges of FC: what each asked for, how it ended, and what lacks of it, from captures alone."""
