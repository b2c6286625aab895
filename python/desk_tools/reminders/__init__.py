"""Reminders: one message for each trip, by the channel that the rider chose."""
