"""GTFS-Flex of the service: its zones, hours and booking rules, for trip planners."""
