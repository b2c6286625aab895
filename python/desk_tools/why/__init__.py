"""A log of a refusal in plain sentences: for each vehicle what kept it from taking the trip."""
