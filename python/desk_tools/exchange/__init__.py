"""A day's trips for other dispatch systems, as TCRP 210 transactional data."""
