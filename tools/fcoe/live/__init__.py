"""A forwarder, hosts and loads on interfaces of Linux."""
