"""A host (ENode with its N_Ports) that keeps the standards, with faults that can be planted."""
