"""The demonstration office: a made town and a made past, served on this machine alone."""
