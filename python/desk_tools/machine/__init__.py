"""The steps of desk-setup, which sets up a machine, and puts all back where one fails."""
