"""The program of the sources: how it is proved, built and tried."""
