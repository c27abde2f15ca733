"""`look check`: what the standards ask of hosts and forwarders, rule by rule."""
