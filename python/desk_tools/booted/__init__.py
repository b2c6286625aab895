"""Debian machines booted under a real systemd, for tests of what is installed on one."""
